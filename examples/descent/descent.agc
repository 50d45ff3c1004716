# DESCENT: a lunar landing from high gate to touchdown, in the manner of the flight programs. Every line is our own.
# README.md beside this file says what each bank holds. Numbers of DEC and VN are decimal, all others octal. A comment at
# a subroutine says what it takes and gives; A and L are lost unless it says something else.
# Units: lengths 1 m, speeds and time to go 1/64, accelerations 1/1024 m/s/s, mass 1 kg, thrust 4 N, angles 32768 to a
# turn, steps of time 1/256 s. A second word counts 16384ths of the first one's unit. In the units of an orbit, which P63
# has far from the site and an abort from its first second on, lengths of the state are 32 m and speeds 1/2 m/s.

# ---- channels
LCHAN   EQUALS  1           # L as a channel
SUPERBNK EQUALS 7           # bit 7: the superbank
JETS    EQUALS  5           # bit 1 tilts forward, bit 2 back
RELAYS  EQUALS  10          # the display's relay words
LAMPS   EQUALS  11          # bit 2 COMP ACTY, 5 KEY REL, 6 flash, 7 OPR ERR, and 13: the engine is on
CHAN13  EQUALS  13          # bits 1 to 3: what the radar is to measure; bit 4: it is to
KEYIN   EQUALS  15          # the code of the key
CHAN16  EQUALS  16          # the switch for the rate of descent: bit 6 is 1 if it is pushed up, bit 7 if down
CONTACT EQUALS  30          # bit 8 is 0 once a leg touches the ground
CHAN31  EQUALS  31          # the hand controller: bit 1 is 0 if it is pushed forward, bit 2 if back
CHAN32  EQUALS  32          # bit 14 is 0 while PRO is down
DNWORD1 EQUALS  34          # the downlink's two words
DNWORD2 EQUALS  35
THROTTLE EQUALS 42          # the thrust that is commanded, 4 N
STAGING EQUALS  43          # bit 1: the descent stage is dropped; bit 2: the accelerometers' pulses are coarse, 0.468 m/s

# ---- erasable memory. Banks 0, 1 and 2 are always at hand, bank 3 is in EB from the start on.
        EBANK=  XN
        SETLOC  0061
NEWLOC  ERASE   +1          # where a new job or task begins, and its banks
NEWVAC  ERASE               # the job's VAC area or +0,
NEWPRIO ERASE               # and its priority, with the VAC area's address in it
LOCCTR  ERASE               # the offset of the core set in hand
SETPTR  ERASE               # the offset of another one
NEWJOB  ERASE               # cell 67: the offset of the core set that is to run next; +0: the job in hand goes on
BESTPRI ERASE               # the highest priority found so far
WAITDT  ERASE               # the task: in how many hundredths of a second
WAITREM ERASE               # what is left of that at the task in hand
WAITI   ERASE
WAITJ   ERASE
RUPTQ   ERASE               # where NOVAC and WAITLIST return to
DSROW   ERASE               # T4RUPT: the row in hand, less one
RUPTTEM ERASE
DSPTAB  ERASE   +13         # the relay words as they were written last
PROUP   ERASE               # +0 while PRO is down
DNPTR   ERASE               # the downlist's place
UPWORD  ERASE               # UPRUPT: the uplink's word,
UPAPART ERASE               # and by how much its copies differ
        SETLOC  0200
MPAC    ERASE   +7          # eight core sets of 12 words: MPAC and MODE,
LOC     ERASE
BANKSET ERASE
PUSHLOC ERASE               # the address of the job's VAC area,
PRIORITY ERASE              # -0: free; minus: asleep; bits 14 to 10 the priority, 9 to 1 the VAC area
        SETLOC  0340
LST1    ERASE   +7          # from task to task, in hundredths of a second
LST2    ERASE   +21         # nine tasks, of which there are five at most: address and banks
        SETLOC  0400
VAC1USE ERASE   +23         # five VAC areas of 20 words; the first word is the area's address, or +0 while it is in use
VAC2USE ERASE   +23
VAC3USE ERASE   +23
VAC4USE ERASE   +23
VAC5USE ERASE   +23
T3MORE  ERASE               # 1 while the next task is due as well. A restart clears this, and what follows:
INMODE  ERASE               # 1: a verb is keyed, 2: a noun, -3: a number
MONNOUN ERASE               # the noun that verb 16 keeps up to date, or +0
DSPLOCK ERASE               # 1 while the crew has the display
PROWAIT ERASE               # the address at which the job that waits for PRO wakes, or +0
NPHASE3 ERASE               # P00 clears this too. Phases, each behind its complement: touchdown,
PHASE3  ERASE
NPHASE4 ERASE               # P64 before PRO,
PHASE4  ERASE
NPHASE5 ERASE               # and guidance
PHASE5  ERASE
AVEGFLG ERASE               # 1 while SERVICER runs each second
DAPON   ERASE               # 1 while the autopilot is on
MODREG  ERASE               # the program: 0, 63 to 66 or 68 to 71
PDNOUN  ERASE               # the noun that it shows, or +0
DIGITS  ERASE   +27         # a fresh start clears this too. The display's digit codes, from R3's last up to PROG's first,
SIGNS   ERASE   +13         # and what else its rows have: bit 11 a sign, or lamps
VERBREG ERASE               # the verb,
NOUNREG ERASE               # the noun,
INVAL   ERASE               # and the number that is keyed
FAILREG ERASE   +2          # alarm codes: the first, the second, and the last, which stays
RSTI    ERASE
FLAGWRD1 ERASE              # the flags: V37BIT, LAMPBIT, FUELBIT, SITEBIT, CUTBIT. A restart clears V37BIT, LAMPBIT, CUTBIT
BUFAL   ERASE   +1          # BANKCALL: A and L on the way there,
BUFCADR ERASE               # the routine,
BUFQ    ERASE               # where to go back to,
BUFBANK ERASE               # and its bank
PHWORD  ERASE
PHINDEX ERASE
        SETLOC  1000
INSIGN  ERASE               # the keyboard: +1 or -1; 0: no sign was keyed
INOVER  ERASE               # not +0: the number is too great
LEFT    ERASE               # how many digits are still to come,
LASTPOS ERASE               # and where the last one goes
DIGIT   ERASE
PROANS  ERASE               # 1 proceed, 0 terminate
FIRSTREG ERASE              # the first register of a load, 0 to 2,
LASTREG ERASE               # the last one,
REGNO   ERASE               # and the one in hand
DSPPOS  ERASE               # where the next digit goes
DSPBITS ERASE
NNPTR   ERASE               # the noun's lines in NOUNTAB
OCTFLAG ERASE               # 1: in octal
SHOWADR ERASE
KIND    ERASE
SHOWQ   ERASE
CLKH    ERASE               # the clock for noun 36: hours, minutes, hundredths of a second
CLKM    ERASE
CLKS    ERASE
RODCMD  ERASE               # the rate that the crew commands in P66, 0.1 m/s, up is plus
        SETLOC  1400        # E3
XN      ERASE   +1          # state: place forward of the site,
VX      ERASE   +1          # forward speed,
ZN      ERASE   +1          # altitude,
VZ      ERASE   +1          # its rate,
MASS    ERASE   +1          # and mass, two words each
DELVX   ERASE               # what READACCS has collected: pulses forward,
DELVZ   ERASE               # up,
DELT    ERASE               # and hundredths of a second
PIPTIME ERASE               # TIME1 at that moment
USEDX   ERASE               # what SERVICER takes of these
USEDZ   ERASE
USEDT   ERASE
STEPDT  ERASE               # the step of time
AXIS    ERASE               # 0 forward, 4 up,
BLK     ERASE               # and PUSHLOC and that
AX      ERASE               # the acceleration that is wanted, forward
DIVISOR ERASE
LAWT    ERASE               # the time to go that LAW takes
LAWQ    ERASE
AZ      ERASE               # the acceleration that is wanted, up (4 words behind AX)
GZ      ERASE               # that and gravity
TGO     ERASE               # time to go
TEMA    ERASE
TEMB    ERASE
TEMC    ERASE
RODMOST ERASE               # the rate down that P66 wants at most
TOUCHT  ERASE               # hundredths of a second since the autopilot's last look
ALARMQ  ERASE
PROGQ   ERASE
PROGNO  ERASE
RANGE   ERASE               # the slant range to the site, as noun 68 has it
LPDANG  ERASE               # the angle of the landing point, as noun 64 has it
LSCORR  ERASE               # how far forward the crew moves the site, m
THETAD  ERASE               # the tilt that is wanted, forward is plus
DAPLAST ERASE               # the tilt as the autopilot saw it last,
DAPTURN ERASE               # what the craft turns in 1.2 seconds,
DAPERR  ERASE               # and how far it is from THETAD
DHM     ERASE               # for the display: the radar's altitude less ours,
PMASS   ERASE               # the mass at low gate, as predicted,
TMASS   ERASE               # and on the ground
FCMD    ERASE               # the thrust that is commanded
SUMX    ERASE               # pulses forward since the engine is on, as READACCS took them,
SUMZ    ERASE               # and up
LASTX   ERASE               # the same as the autopilot saw them last,
LASTZ   ERASE
LASTT   ERASE               # and TIME1 then
NOTHRUST ERASE              # seconds without thrust,
NORADAR ERASE               # and without a radar altitude
RADWORD ERASE   +2          # the radar's words: altitude, 1/4 m; speed along the craft's forward axis, 1/64 m/s; along its
RADGOT  ERASE               # upward axis. How many of these are there,
USEDRAD ERASE               # and how many SERVICER takes
RADLAMPS ERASE              # bit 3: VEL lights, bit 5: ALT
TILT    ERASE               # the tilt as the radar's speeds are taken
UFWD    ERASE               # half of the forward part of one metre along an axis,
UUP     ERASE               # and half of the upward part
RODCOUNT ERASE              # clicks of the switch for the rate of descent, up is plus,
REDCOUNT ERASE              # and of the hand controller, forward is plus
ORBNAV  ERASE               # 1 while the state is in the units of an orbit; 2: it was loaded so, for P63
STAGED  ERASE               # an abort: 1 once the descent stage is dropped,
ENGCUT  ERASE               # from 1 on once the engine is off in orbit
PULL    ERASE               # the gravity that is left, less what the speed makes up for, 2 to the -13 m/s/s
NEWPULL ERASE               # the same at the end of a step
GHERE   ERASE               # gravity here
ATOT    ERASE               # the acceleration of the engine
ORBTGO  ERASE               # time to go, 1/16 s
ORBTEM  ERASE   +1
VGODISP ERASE               # for the display: speed to be gained, m/s,
ALTRATE ERASE               # altitude rate, 0.1 m/s,
ALTKM   ERASE               # altitude, 0.01 km,
APOLUNE ERASE               # apolune,
PERILUNE ERASE              # perilune, 0.1 km,
SPEEDMS ERASE               # and speed, m/s
ECCX    ERASE               # eccentricity, upward from the perilune,
ECC     ERASE               # and all of it
RHERE   ERASE               # the way to the Moon's middle, 0.2 km
BRKTGO  ERASE               # for the display in P63: time to go, 0.1 s,
BRKWAY  ERASE               # place forward of the site, 0.1 km,
BRKALT  ERASE               # and altitude, m
STEPREM ERASE               # what the steps have left of the time, 2 to the -22 s,
NEWREM  ERASE               # and what the step in hand leaves

# ---- bank 02: vectors, Executive, Waitlist, interrupts
        SETLOC  4000
        INHINT
        TCF     GOSTART
        SETLOC  4004
        RESUME              # T6RUPT
        SETLOC  4010
        DXCH    ARUPT
        EXTEND
        QXCH    QRUPT
        TCF     T5RUPT
        DXCH    ARUPT
        EXTEND
        QXCH    QRUPT
        TCF     T3RUPT
        DXCH    ARUPT
        EXTEND
        QXCH    QRUPT
        TCF     T4RUPT
        DXCH    ARUPT
        EXTEND
        QXCH    QRUPT
        TCF     KEYRUPT1
        DXCH    ARUPT
        EXTEND
        QXCH    QRUPT
        TCF     KEYRUPT2
        SETLOC  4034
        DXCH    ARUPT
        EXTEND
        QXCH    QRUPT
        TCF     UPRUPT
        SETLOC  4040
        TCF     DOWNRUPT
        SETLOC  4044
        DXCH    ARUPT
        EXTEND
        QXCH    QRUPT
        TCF     RADARUPT
        DXCH    ARUPT
        EXTEND
        QXCH    QRUPT
        TCF     RUPT10
        SETLOC  4060
GOSTART INHINT              # power comes on, or verb 36
        TC      POSTJUMP
        CADR    FRESH
GOTOP00 INHINT
        TC      POSTJUMP
        CADR    GOP00
RESTART INHINT
        TC      POSTJUMP
        CADR    GORESTRT

# BANKCALL: calls the routine in another bank whose CADR is the word after the call; A and L go there and come back.
# SWCALL: the one whose CADR is in A; only A comes back. POSTJUMP: goes there, and does not come back. For jobs alone;
# the routine must not give way, nor call so.
BANKCALL DXCH   BUFAL
        INDEX   Q
        CA      0
        INCR    Q
SWCALL  TS      BUFCADR
        EXTEND
        QXCH    BUFQ
        CA      BUFCADR     # FBANK takes the bank's bits of a CADR alone
        XCH     FBANK
        TS      BUFBANK
        CA      BUFCADR
        MASK    LOW10
        AD      WINDOW
        TS      BUFCADR
        DXCH    BUFAL
        INDEX   BUFCADR
        TC      0
        XCH     BUFBANK
        XCH     FBANK
        XCH     BUFBANK
        INDEX   BUFQ
        TC      0
POSTJUMP INDEX  Q
        CA      0
        TS      BUFCADR
        XCH     FBANK
        CA      BUFCADR
        MASK    LOW10
        AD      WINDOW
        INDEX   A
        TC      0

# UPFLAG: the flag whose bit has its address after the call goes up; DOWNFLAG: it goes down. For jobs.
UPFLAG  INDEX   Q
        CA      0
        INDEX   A
        CA      0
        INHINT
        XCH     L
        CA      FLAGWRD1
        EXTEND
        ROR     LCHAN
FLAGSET TS      FLAGWRD1
        RELINT
        INDEX   Q
        TC      1
DOWNFLAG INDEX  Q
        CA      0
        INDEX   A
        CS      0
        INHINT
        MASK    FLAGWRD1
        TCF     FLAGSET

# PHASCHNG: the word after the call is phase and group, as OCT 13 for phase 1 of group 3; phase 0: the group is done. A
# restart goes on where the phase table says. Each phase stands behind its complement. For jobs.
PHASCHNG INHINT
        INDEX   Q
        CA      0
        TS      PHWORD
        MASK    SEVEN
        AD      LESS3
        DOUBLE
        TS      PHINDEX
        CA      PHWORD
        EXTEND
        MP      BIT12
        TS      L
        COM
        INDEX   PHINDEX
        DXCH    NPHASE3
        RELINT
        INDEX   Q
        TC      1

# The Executive. A job has a core set; the one that runs has set 0. NEWJOB has the offset of a better job's, and +0 if
# there is none. A job looks at it now and then, by
#       CCS     NEWJOB
#       TC      CHANG1
# and loses A and L there, while MPAC stays its own. From a job NOVAC, FINDVAC, JOBWAKE and WAITLIST want INHINT before.
# NOVAC: a new job. A has its priority, the two words after the call its address and banks. FINDVAC: one with a VAC area.
FINDVAC TS      NEWPRIO
        CCS     VAC1USE
        TCF     VACFOUND
        CCS     VAC2USE
        TCF     VACFOUND
        CCS     VAC3USE
        TCF     VACFOUND
        CCS     VAC4USE
        TCF     VACFOUND
        CCS     VAC5USE
        TCF     VACFOUND
        TC      BAILOUT
        OCT     1201
VACFOUND AD     ONE
        TS      NEWVAC
        ADS     NEWPRIO
        CA      ZERO
        INDEX   NEWVAC
        TS      0
        TCF     NOVAC1
NOVAC   TS      NEWPRIO
        CA      ZERO
        TS      NEWVAC
NOVAC1  EXTEND
        INDEX   Q
        DCA     0
        DXCH    NEWLOC
        EXTEND
        QXCH    RUPTQ
        CA      TWELVE      # set 0 is for CHANG1 alone
NOVAC2  TS      LOCCTR
        INDEX   LOCCTR
        CCS     PRIORITY
        TCF     NEXTCORE
        TCF     NEXTCORE
        TCF     NEXTCORE
        EXTEND              # -0: this set is free
        DCA     NEWVAC
        INDEX   LOCCTR
        DXCH    PUSHLOC
        DXCH    NEWLOC
        INDEX   LOCCTR
        DXCH    LOC
JOBCAME CCS     NEWJOB      # is it better than the job that runs, or is to run next?
        TCF     +2
        TCF     +2
        AD      ONE
        INDEX   A
        CA      PRIORITY
        EXTEND
        BZMF    BETTER      # nobody runs
        MASK    PRIOMASK
        TS      BESTPRI
        INDEX   LOCCTR
        CA      PRIORITY
        MASK    PRIOMASK
        EXTEND
        SU      BESTPRI
        EXTEND
        BZMF    EXECOUT
BETTER  CA      LOCCTR
        TS      NEWJOB
EXECOUT INDEX   RUPTQ
        TC      2
NEXTCORE CA     TWELVE
        ADS     LOCCTR
        AD      LESS84
        EXTEND
        BZMF    NOVAC2 +1
        TC      BAILOUT
        OCT     1202
# CHANG1: the job gives way to the one in NEWJOB.
CHANG1  INHINT
        CA      Q
        TS      LOC
        CA      BBANK
        EXTEND
        ROR     SUPERBNK
        TS      BANKSET
CHANG2  CA      ZERO
        XCH     NEWJOB
        TS      SETPTR      # exchanges set 0 with this one, two words at a time
        EXTEND
        BZF     DISPATCH
        CA      ZERO
CHANG3  TS      LOCCTR
        INDEX   LOCCTR
        DXCH    MPAC
        INDEX   SETPTR
        DXCH    MPAC
        INDEX   LOCCTR
        DXCH    MPAC
        CA      TWO
        ADS     SETPTR
        CA      TWO
        ADS     LOCCTR
        AD      LESS10
        EXTEND
        BZMF    CHANG3 +1
DISPATCH CA     BANKSET
        EXTEND
        WRITE   SUPERBNK
        EXTEND
        DCA     LOC
        RELINT
        DXCH    Z
YIELD   CA      BBANK
        EXTEND
        ROR     SUPERBNK
        TS      BANKSET
        TCF     EJSCAN

# ENDOFJOB: the job is done, and its VAC area free. The best of those that are ready runs.
ENDOFJOB INHINT
        CA      PRIORITY
        MASK    VACMASK
        INDEX   A
        TS      0           # (A, if it has no VAC area)
        CS      ZERO
        TS      PRIORITY
EJSCAN  CA      ZERO
        TS      BESTPRI
        TS      NEWJOB
EJLOOP  TS      LOCCTR
        INDEX   LOCCTR
        CA      PRIORITY
        EXTEND
        BZMF    EJNEXT
        MASK    PRIOMASK
        EXTEND
        SU      BESTPRI
        EXTEND
        BZMF    EJNEXT
        ADS     BESTPRI
        CA      LOCCTR
        TS      NEWJOB
EJNEXT  CA      TWELVE
        ADS     LOCCTR
        AD      LESS84
        EXTEND
        BZMF    EJLOOP +1
        CCS     BESTPRI
        TCF     CHANG2
EJDONE  CS      TWO         # nobody is ready: the lamp goes out,
        EXTEND
        WAND    LAMPS
        RELINT
IDLE    CCS     NEWJOB      # and the machine waits for NEWJOB
        TCF     IDLEND
        TCF     IDLE
IDLEND  INHINT
        CA      TWO
        EXTEND
        WOR     LAMPS
        TCF     CHANG2

# PRIOCHNG: the job goes on with the priority in A, once it is the best again. JOBSLEEP: the job sleeps until JOBWAKE is
# called with the address in A, and goes on there.
PRIOCHNG INHINT
        TS      NEWPRIO
        CA      Q
        TS      LOC
        CA      PRIORITY
        MASK    VACMASK
        AD      NEWPRIO
        TCF     +4
JOBSLEEP INHINT
        TS      LOC
        CS      PRIORITY
        TS      PRIORITY
        TCF     YIELD
JOBWAKE TS      NEWLOC
        CS      TWO
        AD      Q
        TS      RUPTQ
        CA      ZERO
        TS      LOCCTR
JWLOOP  INDEX   LOCCTR
        CCS     PRIORITY
        TCF     JWNEXT
        TCF     JWNEXT
        TCF     +2
        TCF     JWNEXT
        INDEX   LOCCTR
        CA      LOC
        EXTEND
        SU      NEWLOC
        EXTEND
        BZF     JWFOUND
JWNEXT  CA      TWELVE
        ADS     LOCCTR
        AD      LESS84
        EXTEND
        BZMF    JWLOOP
        TCF     EXECOUT     # nobody sleeps there
JWFOUND INDEX   LOCCTR
        CS      PRIORITY
        INDEX   LOCCTR
        TS      PRIORITY
        TCF     JOBCAME

# The Waitlist. A task runs in T3RUPT, and ends by TC TASKOVER, FIXDELAY or VARDELAY. TIME3 carries when the first
# task is due; LST1 has the time from each to the next one.
# WAITLIST: a new task. A has the delay, 2 to 7999; the two words after the call are its address and its banks.
WAITLIST TS     WAITDT
        EXTEND
        INDEX   Q
        DCA     0
        DXCH    NEWLOC
        CA      TWO
        AD      Q
WAIT1   TS      RUPTQ
        CS      TIME3
        AD      HALF
        EXTEND
        BZMF    +3
        CS      TIME3       # it has carried: the first task is due already
        TCF     +2
        AD      HALF        # 16384 - TIME3
        EXTEND
        SU      WAITDT
        EXTEND
        BZMF    WAIT2
        TS      RUPTTEM     # it comes before the first
        ADS     TIME3
        CA      ZERO
        TCF     INSERT
WAIT2   TS      WAITREM     # so much after the first, minus
        CA      ZERO
WAIT3   TS      WAITI
        INDEX   WAITI
        CA      LST1
        AD      WAITREM
        EXTEND
        BZMF    WAIT4       # not before the next one
        TS      RUPTTEM
        CS      WAITREM
        INDEX   WAITI
        TS      LST1
        CA      WAITI
        AD      ONE
        TCF     INSERT
WAIT4   TS      WAITREM
        INCR    WAITI
        CS      EIGHT
        AD      WAITI
        EXTEND
        BZF     WAITFULL    # it comes after nine others
        TCF     WAIT3 +1
INSERT  TS      WAITJ       # RUPTTEM into LST1 there, the task into LST2, and all behind them one place on
INSERT1 CA      WAITJ
        AD      WAITJ
        TS      WAITI
        DXCH    NEWLOC
        INDEX   WAITI
        DXCH    LST2
        DXCH    NEWLOC
        CS      EIGHT
        AD      WAITJ
        EXTEND
        BZF     WAITOUT     # the tenth comes out: it must be no task
        CA      RUPTTEM
        INDEX   WAITJ
        XCH     LST1
        TS      RUPTTEM
        INCR    WAITJ
        TCF     INSERT1
WAITOUT CS      NEWLOC
        AD      DUMMY
        EXTEND
        BZF     +3
WAITFULL TC     BAILOUT
        OCT     1203
        INDEX   RUPTQ
        TC      0
# FIXDELAY: the task goes on after the call in so many hundredths as the word after it says; VARDELAY: as A says.
FIXDELAY INDEX  Q
        CA      0
        INCR    Q
VARDELAY TS     WAITDT
        CA      BBANK
        TS      NEWLOC +1
        CA      Q
        TS      NEWLOC
        CA      DUMMY
        TCF     WAIT1
T3RUPT  CS      TIME3       # was it requested before a restart? Then nothing is due
        AD      HALF
        EXTEND
        BZMF    RUPTEND
        CA      BBANK
        TS      BBRUPT
T3NEXT  CS      LST1        # the task after this one is due in LST1: TIME3 + 16384 - LST1
        AD      POSMAX
        AD      ONE
        ADS     TIME3
        TS      T3MORE      # a carry, which is 1 in A: it is due too
        CA      ZERO
        TS      T3MORE
        CA      DT80S
        XCH     LST1 +7
        XCH     LST1 +6
        XCH     LST1 +5
        XCH     LST1 +4
        XCH     LST1 +3
        XCH     LST1 +2
        XCH     LST1 +1
        XCH     LST1
        EXTEND
        DCA     DUMMY
        DXCH    LST2 +20
        DXCH    LST2 +16
        DXCH    LST2 +14
        DXCH    LST2 +12
        DXCH    LST2 +10
        DXCH    LST2 +6
        DXCH    LST2 +4
        DXCH    LST2 +2
        DXCH    LST2
        DXCH    Z
TASKOVER CCS    T3MORE
        TCF     T3NEXT
        CA      BBRUPT
        TS      BBANK
RUPTEND EXTEND
        QXCH    QRUPT
        DXCH    ARUPT
        RESUME
DUMMY   2CADR   TASKOVER    # a place in the Waitlist without a task

# Three tasks. MONTASK, twice a second: the display, and for verb 16 what noun 68 shows. READACCS, each second: collects
# what the accelerometers have counted, and starts SERVICER. LRTASK, 40 ms before it: begins to read the radar, which has
# three words by then. GUIDTASK starts both.
MONTASK CA      PRIO30
        TC      NOVAC
        2CADR   DISPJOB
        CS      SIXTY8
        AD      MONNOUN
        EXTEND
        BZF     +2
        TCF     MONTASK1
        CA      PRIO10
        TC      NOVAC
        2CADR   RANGEJOB
MONTASK1 TC     FIXDELAY
        DEC     50
        TCF     MONTASK
GUIDTASK CA     FOUR
        TC      WAITLIST
        2CADR   READACCS
LRTASK  CCS     AVEGFLG
        TCF     +2
        TC      TASKOVER
        CA      ZERO
        TS      RADGOT
        CA      RADASK
        EXTEND
        WRITE   CHAN13
        TC      TASKOVER
READACCS CCS    AVEGFLG
        TCF     +2
        TC      TASKOVER
        CA      TIME1
        XCH     PIPTIME
        COM
        AD      PIPTIME
        AD      POSMAX      # and 16384, if TIME1 began anew; else that overflows
        AD      ONE
        ADS     DELT
        CA      ZERO
        XCH     PIPAZ
        TS      RUPTTEM
        ADS     DELVX
        CA      RUPTTEM
        ADS     SUMX
        CA      ZERO
        XCH     PIPAX
        TS      RUPTTEM
        ADS     DELVZ
        CA      RUPTTEM
        ADS     SUMZ
        CA      PRIO20
        TC      FINDVAC
        2CADR   SERVICER
        CA      NINETY6
        TC      WAITLIST
        2CADR   LRTASK
        TC      FIXDELAY
        DEC     100
        TCF     READACCS

# T4RUPT, each 20 ms: PRO, and one row of the display.
T4RUPT  CA      T4DT
        TS      TIME4
        CA      HALF
        EXTEND
        RAND    CHAN32
        XCH     PROUP
        EXTEND
        SU      PROUP
        EXTEND
        BZMF    T4ROW       # it is not down, or it was before
        CA      PRIO30
        TC      NOVAC
        2CADR   PROKEY
T4ROW   CCS     DSROW
        TCF     +2
        CA      ELEVEN
        TS      DSROW
        CA      LAMPBIT
        MASK    FLAGWRD1
        EXTEND
        BZF     +2
        TCF     T4TEST
        CA      DSROW       # the left digit by 32, the right one, and a sign
        DOUBLE
        TS      RUPTTEM
        INDEX   RUPTTEM
        CA      DIGITS +1
        EXTEND
        MP      BIT6
        CA      L
        INDEX   RUPTTEM
        AD      DIGITS
        INDEX   DSROW
        AD      SIGNS
T4WRITE INDEX   DSROW
        AD      RELTAB
        TS      RUPTTEM
        INDEX   DSROW
        XCH     DSPTAB
        EXTEND
        SU      RUPTTEM
        EXTEND
        BZF     RUPTEND     # the relays have it already
        CA      RUPTTEM
        EXTEND
        WRITE   RELAYS
        TCF     RUPTEND
T4TEST  CA      ALLEIGHT
        TCF     T4WRITE
ALLEIGHT OCT    3675        # two digits 8 and a sign
RELTAB  2OCT    0400010000  # the rows' numbers
        2OCT    1400020000
        2OCT    2400030000
        2OCT    3400040000
        2OCT    4400050000
        2OCT    5400060000

# T5RUPT, each 100 ms: the autopilot, and the look for the ground. The error, 12 degrees at most, and what the craft
# turns in 1.2 seconds decide: above +36, 0.4 degrees, it burns the jet for back, below -36 the one for forward. So a
# great error is taken away by 10 degrees a second, which one jet stops in 12.5.
T5RUPT  CA      T5DT
        TS      TIME5
        CCS     DAPON
        TCF     DAP
        TCF     RUPTEND
DAP     CA      BIT8
        EXTEND
        RAND    CONTACT
        EXTEND
        BZF     TOUCH
        CA      SUMX        # what the ground would stop
        AD      PIPAZ
        TS      LASTX
        CA      SUMZ
        AD      PIPAX
        TS      LASTZ
        CA      TIME1
        TS      LASTT
        CA      CDUY
        EXTEND
        MSU     ZERO
        XCH     DAPLAST
        COM
        AD      DAPLAST
        EXTEND
        MP      TWELVE
        LXCH    DAPTURN
        CS      THETAD
        AD      DAPLAST
        TS      DAPERR
        AD      LESS12DG
        EXTEND
        BZMF    +4
        CS      LESS12DG
        TS      DAPERR
        TCF     DAPLINE
        CS      DAPERR
        AD      LESS12DG
        EXTEND
        BZMF    DAPLINE
        CA      LESS12DG
        TS      DAPERR
DAPLINE CA      DAPERR
        AD      DAPTURN
        AD      LESS36
        EXTEND
        BZMF    +3
        CA      TWO
        TCF     DAPFIRE
        AD      SEVENTY2
        EXTEND
        BZMF    +3
        CA      ZERO
        TCF     DAPFIRE
        CA      ONE
DAPFIRE EXTEND
        WRITE   JETS
        TCF     RUPTEND
TOUCH   TC      ENGOFF      # a leg touches the ground: P68, by a phase, since what follows may end in an alarm
        EXTEND
        DCA     PHASE1
        DXCH    NPHASE3     # PHASCHNG is for jobs
        CA      NINETY
        TC      WAITLIST
        2CADR   P68TASK
        TCF     RUPTEND
# ENGOFF: engine, throttle and jets go off, and with them autopilot and guidance. It wants INHINT before.
ENGOFF  CS      BIT13
        EXTEND
        WAND    LAMPS       # the order that shuts the engine down
        CA      ZERO
        EXTEND
        WRITE   THROTTLE
        EXTEND
        WRITE   JETS
        TS      DAPON
        TS      AVEGFLG
        TS      NPHASE5
        TS      PHASE5
        TC      Q
KEYRUPT1 CA     PRIO30
        TC      NOVAC
        2CADR   CHARIN
        CA      LOW5
        EXTEND
        RAND    KEYIN
        INDEX   LOCCTR
        TS      MPAC        # the job has the key's code in its MPAC
        TCF     RUPTEND

# RADARUPT: the radar has measured what channel 13 names. The word is in RNRAD, and the next one is wanted.
RADARUPT CA     BIT4
        EXTEND
        RAND    CHAN13
        EXTEND
        BZF     RUPTEND     # nobody wants it any more
        CA      RNRAD
        INDEX   RADGOT
        TS      RADWORD
        INCR    RADGOT
        INDEX   RADGOT
        CA      RADASK
        EXTEND
        WRITE   CHAN13
        TCF     RUPTEND
RADASK  OCT     17          # the altitude,
        OCT     16          # the speed along the forward axis,
        OCT     14          # that along the upward axis,
        OCT     0           # and no more

# KEYRUPT2: a click of the switch for the rate of descent. RUPT10: one of the hand controller.
KEYRUPT2 CA     BIT6
        EXTEND
        RAND    CHAN16
        EXTEND
        BZF     +3
        CA      ONE
        TCF     +2
        CS      ONE
        ADS     RODCOUNT
        TCF     RUPTEND
RUPT10  CA      ONE
        EXTEND
        RAND    CHAN31
        EXTEND
        BZF     FORWARDS
        CA      TWO
        EXTEND
        RAND    CHAN31
        EXTEND
        BZF     +2
        TCF     RUPTEND     # it is back in its middle
        CS      ONE
        TCF     +2
FORWARDS CA     ONE
        ADS     REDCOUNT
        TCF     RUPTEND

# DOWNRUPT: two words of the downlist: its name, the state, the time.
DOWNRUPT DXCH   ARUPT
        CCS     DNPTR
        TCF     +2
        CA      SIX
        TS      DNPTR
        INDEX   DNPTR
        CA      DNLIST
        EXTEND
        INDEX   A
        DCA     0
        EXTEND
        WRITE   DNWORD1
        CA      L
        EXTEND
        WRITE   DNWORD2
        DXCH    ARUPT
        RESUME
DNLIST  ADRES   TIME2
        ADRES   MASS
        ADRES   VZ
        ADRES   ZN
        ADRES   VX
        ADRES   XN
        ADRES   DNID        # the list begins: its name
DNID    2OCT    0177677340

# BAILOUT: an alarm that drops all jobs. The word after the call is its code. It is called by jobs and in interrupts,
# and so leaves by RESUME, which ends a service where there is one; the order in BRUPT then runs.
BAILOUT INHINT
        INDEX   Q
        CA      0
        TC      SETALARM
        CA      GOORDER
        TS      BRUPT
        RESUME
GOORDER TCF     RESTART
# POODOO: the same, but the program is P00 then: what was begun cannot go on.
POODOO  INHINT
        INDEX   Q
        CA      0
        TC      SETALARM
        TCF     GOTOP00
# ALARM: the same without a restart: the code in the word after the call lights PROG, and the caller goes on.
ALARM   EXTEND
        QXCH    ALARMQ
        INDEX   ALARMQ
        CA      0
        TC      SETALARM
        INDEX   ALARMQ
        TC      1
# SETALARM: the code in A goes into FAILREG, and PROG lights.
SETALARM TS     FAILREG +2
        CCS     FAILREG
        TCF     +4
        CA      FAILREG +2
        TS      FAILREG
        TCF     +5
        CCS     FAILREG +1
        TCF     +3
        CA      FAILREG +2
        TS      FAILREG +1
        CS      BIT9        # ALT and VEL stay as they are
        MASK    SIGNS +13
        AD      BIT9
        TS      SIGNS +13
        TC      Q

# UPRUPT: a key from the ground. INLINK has its code, the complement and the code again, five bits each: so the word's
# last ten bits are the first ten of its complement.
UPRUPT  CA      ZERO
        XCH     INLINK      # +0 for the next word
        TS      UPWORD
        CS      A
        MASK    POSMAX
        EXTEND
        MP      BIT10       # bits 14 to 6 of the complement
        COM
        TS      UPAPART
        CA      UPWORD
        MASK    LOW10
        ADS     UPAPART
        CA      UPWORD
        EXTEND
        BZMF    +3          # bit 15 of the complement is 0
        CS      BIT10
        ADS     UPAPART
        CA      UPAPART
        EXTEND
        BZF     +2
        TCF     RUPTEND     # the copies differ: no key
        CA      PRIO30
        TC      NOVAC
        2CADR   CHARIN
        CA      LOW5
        MASK    UPWORD
        INDEX   LOCCTR
        TS      MPAC
        TCF     RUPTEND

# ---- bank 03: constants, arithmetic
        SETLOC  6000
POSMAX  OCT     37777
ONE     DEC     1
TWO     DEC     2
THREE   DEC     3
FOUR    DEC     4
FIVE    DEC     5
SIX     DEC     6
SEVEN   DEC     7
EIGHT   DEC     8
NINE    DEC     9
TEN     DEC     10
ELEVEN  DEC     11
TWELVE  DEC     12
SIXTEEN DEC     16
SEVENTEN DEC    17
NINETEEN DEC    19
TWENTY1 DEC     21
SIXTY   DEC     60
SIXTY1  DEC     61
SIXTY4  DEC     64
SIXTY5  DEC     65
SIXTY6  DEC     66
SIXTY8  DEC     68
SIXTY9  DEC     69
SEVENTY DEC     70
SEVENTY2 DEC    72
NINETY  DEC     90
NINETY6 DEC     96
LESS1   DEC     -1
LESS2   DEC     -2
LESS3   DEC     -3
LESS4   DEC     -4
LESS10  DEC     -10
LESS36  DEC     -36
LESS12DG DEC    -1092       # 12 degrees of CDUY
LESS64  DEC     -64
LESS84  DEC     -84         # the last core set
BIT3    OCT     4
BIT4    OCT     10
BIT5    OCT     20
BIT6    OCT     40
BIT7    OCT     100
BIT8    OCT     200
BIT9    OCT     400
BIT10   OCT     1000
BIT11   OCT     2000
BIT12   OCT     4000
BIT13   OCT     10000
HALF    OCT     20000
LOW5    OCT     37
LOW10   OCT     1777
WINDOW  EQUALS  BIT11       # where a switched bank begins
V37BIT  OCT     1           # verb 37 waits for its program
LAMPBIT OCT     2           # a lamp test
RESTBITS OCT    23
FUELBIT OCT     4           # the alarm of low fuel came
SITEBIT OCT     10          # and that of a site out of reach
CUTBIT  EQUALS  BIT5        # the engine's end is in the Waitlist
ALLLAMPS OCT    175         # KEY REL, OPR ERR, the flash, and those of a lamp test
VACMASK OCT     00777
PRIOMASK OCT    37000
PRIO10  OCT     10000
PRIO14  OCT     14000
PRIO20  OCT     20000
PRIO30  OCT     30000
DT80S   DEC     8000
T4DT    DEC     16382       # two steps to the carry
T5DT    DEC     16374       # ten
GRAVITY DEC     1659        # 1.62 m/s/s
TENBY64 DEC     .15625
PHASE1  2OCT    7777600001
# DIVS: A = MPAC by DIVISOR, which is above one; where the quotient has no place in a word, the greatest of its sign.
DIVS    CCS     MPAC
        TCF     +3
        TCF     +2
        TCF     +1
        EXTEND              # the magnitude, less one
        SU      DIVISOR
        AD      TWO
        EXTEND
        BZMF    DIVGO
        CCS     MPAC
        CA      POSMAX
        TC      Q
        CS      POSMAX
        TC      Q
DIVGO   EXTEND
        DCA     MPAC
        EXTEND
        DV      DIVISOR
        TC      Q

# LIMIT: A, or where its magnitude is more than the word after the call says, that with its sign.
LIMIT   TS      TEMB
        INDEX   Q
        CS      0
        AD      TEMB
        EXTEND
        BZMF    +4
        INDEX   Q
        CA      0
        TCF     LIMITED
        INDEX   Q
        CA      0
        AD      TEMB
        EXTEND
        BZMF    +3
        CA      TEMB
        TCF     LIMITED
        INDEX   Q
        CS      0
LIMITED INDEX   Q
        TC      1

# ATMOST: A, or the word after the call if that is less. ATLEAST: A, or that word if it is more. ABS: A's magnitude.
ATMOST  TS      TEMB
        INDEX   Q
        CS      0
        AD      TEMB
        EXTEND
        BZMF    BOUNDED
BOUND   INDEX   Q
        CA      0
        INDEX   Q
        TC      1
ATLEAST TS      TEMB
        INDEX   Q
        CS      0
        AD      TEMB
        EXTEND
        BZMF    BOUND
BOUNDED CA      TEMB
        INDEX   Q
        TC      1
ABS     EXTEND
        BZMF    +2
        TC      Q
        COM
        TC      Q

# LAW: the quadratic law of the Apollo landings for a target without acceleration, on axis A: AX or AZ, and A, is
# 6/T (2 way/T - (target speed + speed)). The state is that in the VAC area, T is LAWT.
LAW     EXTEND
        QXCH    LAWQ
        TS      AXIS
        AD      PUSHLOC
        TS      BLK
        EXTEND
        INDEX   BLK
        DCS     1
        DXCH    MPAC
        INDEX   AXIS
        CA      TARGET
        ADS     MPAC        # the way to the target
        CA      LAWT
        TS      DIVISOR
        TC      DIVS        # by T, in 1/256 m/s
        EXTEND
        MP      HALF
        EXTEND
        INDEX   BLK
        SU      3
        INDEX   AXIS
        AD      TARGET +1
        ZL
        DXCH    MPAC
        TC      DIVS        # the same by T, in 2 to the -14 m/s/s
        EXTEND
        MP      SIXBY16
        INDEX   AXIS
        TS      AX
        TC      LAWQ
SIXBY16 DEC     6144
TARGET  DEC     0           # low gate: over the site,
        DEC     -128        # at 2 m/s forward;
        2DEC    0
        DEC     30          # 30 m up,
        DEC     128         # at 2 m/s down

# STEP: a step of STEPDT on the axis in BLK, in the VAC area. MPAC has half of the speed that it brings: the way is that
# at the speed of its middle.
STEP    EXTEND
        DCA     MPAC
        INDEX   BLK
        DAS     3
        INDEX   BLK
        CA      4
        EXTEND
        MP      STEPDT
        TS      L
        CA      ZERO
        INDEX   BLK
        DAS     1
        INDEX   BLK
        CA      3
        EXTEND
        MP      STEPDT
        INDEX   BLK
        DAS     1
        EXTEND
        DCA     MPAC
        INDEX   BLK
        DAS     3
        TC      Q
# THRUST: A = the thrust for the accelerations AX and AZ, by the mass in the VAC area, 4.5 to 42.3 kN. Upward -1.12 to
# 3 m/s/s are possible; GZ is that and gravity. Forward AX gets what is left: 3 GZ at most, for a tilt of 72 degrees, and
# 6 m/s/s less GZ, for the engine's sake. The magnitude is a square root. THRUST3: the same for AX, the square of GZ in
# MPAC and the address in LAWQ, without these bounds.
THRUST  EXTEND
        QXCH    LAWQ
        CA      AZ
        AD      LESSMIDA
        TC      LIMIT
        DEC     2109
        AD      MIDDLEA
        AD      GRAVITY
        TS      GZ
        EXTEND
        SQUARE
        DXCH    MPAC
        CS      GZ
        AD      AMOST
        TS      TEMA
        AD      LESS45
        EXTEND
        BZMF    +5
        CA      GZ          # up to 1.5 m/s/s the first bound is the lower one
        DOUBLE
        AD      GZ
        TS      TEMA
        CA      AX
        EXTEND
        BZMF    THRUST2
        EXTEND
        SU      TEMA
        EXTEND
        BZMF    THRUST3
        CA      TEMA
        TS      AX
        TCF     THRUST3
THRUST2 AD      TEMA
        EXTEND
        BZMF    +2
        TCF     THRUST3
        CS      TEMA
        TS      AX
THRUST3 CA      AX
        EXTEND
        SQUARE
        DAS     MPAC
        TC      SQRT
        EXTEND
        INDEX   PUSHLOC
        MP      11          # in 16 N
        AD      LESSMID
        TC      LIMIT
        DEC     1181
        AD      MIDDLE
        DOUBLE
        DOUBLE
        TC      LAWQ
LESSMIDA DEC    -962        # the middle of the bounds upward
MIDDLEA DEC     962
AMOST   DEC     6144        # 6 m/s/s
LESS45  DEC     -4608       # 4.5 m/s/s
LESSMID DEC     -1462
MIDDLE  DEC     1462
# ARCTAN: A = the angle in CDU pulses whose tangent is A, by a polynomial. The tangent is at most 1.
ARCTAN  TS      TEMA
        EXTEND
        SQUARE
        TS      TEMB
        EXTEND
        MP      ATANC5
        AD      ATANC3
        EXTEND
        MP      TEMB
        AD      ATANC1
        EXTEND
        MP      TEMA
        TC      Q
ATANC1  DEC     5191
ATANC3  DEC     -1506
ATANC5  DEC     414
# TILTFOR: A = the tilt for the accelerations AX forward and GZ up, by the tangent of it or of what it lacks to 90 degrees.
TILTFOR EXTEND
        QXCH    LAWQ
        CA      AX
        TC      ABS
        TS      DIVISOR
        EXTEND
        SU      GZ
        EXTEND
        BZMF    STEEP
        CA      GZ
        ZL
        DXCH    MPAC
        TC      DIVS
        TC      ARCTAN
        COM
        AD      LEVEL
        TS      TEMA
        CA      AX
        EXTEND
        BZMF    +3
        CA      TEMA
        TC      LAWQ
        CS      TEMA
        TC      LAWQ
STEEP   CA      AX
        ZL
        DXCH    MPAC
        CA      GZ
        TS      DIVISOR
        TC      DIVS
        TC      ARCTAN
        TC      LAWQ
LEVEL   DEC     8192        # 90 degrees
# SINE: A = half of the sine of angle A, in CDU pulses, at most 8191 (90 degrees), by a polynomial.
SINE    DOUBLE
        TS      TEMA
        EXTEND
        SQUARE
        TS      TEMB
        EXTEND
        MP      SINE5
        AD      SINE3
        EXTEND
        MP      TEMB
        AD      SINE1
        EXTEND
        MP      TEMA
        TC      Q
SINE1   DEC     .785313
SINE3   DEC     -.321615
SINE5   DEC     .036355
# SQRT: A = the root of MPAC, by thirteen steps of Newton's rule.
SQRT    CA      POSMAX
        TS      TEMA
        CA      TWELVE
NEWTON  TS      TEMB
        EXTEND
        DCA     MPAC
        EXTEND
        DV      TEMA
        EXTEND
        SU      TEMA
        EXTEND
        MP      HALF
        ADS     TEMA
        CCS     TEMB
        TCF     NEWTON
        CA      TEMA
        TC      Q
# BURN: the mass in the VAC area less what thrust A burns in STEPDT: 0.0013115 kg in a second for each unit.
BURN    EXTEND
        MP      STEPDT
        EXTEND
        MP      BURNT
        EXTEND
        DCOM
        INDEX   PUSHLOC
        DAS     11
        TC      Q
BURNT   DEC     .083935

# ---- bank 04: keyboard, display and nouns
        BANK    04
# CHARIN: the job of a key, whose code is in MPAC.
CHARIN  CS      SIXTEEN
        AD      MPAC
        EXTEND
        BZMF    NUMBER      # 0 has 20, 1 to 9 themselves
        INDEX   A
        TCF     KEYTAB -1
KEYTAB  TCF     VERB        # 21
        TCF     RSET
        TCF     DISPJOB
        TCF     DISPJOB
        TCF     DISPJOB
        TCF     DISPJOB
        TCF     DISPJOB
        TCF     DISPJOB
        TCF     KEYREL      # 31
        TCF     PLUS
        TCF     MINUS
        TCF     ENTER
        TCF     DISPJOB
        TCF     CLEAR
        TCF     NOUN        # 37
VERB    CA      ONE
        TCF     +2
NOUN    CA      TWO
        TS      INMODE
        TC      DOWNFLAG
        ADRES   V37BIT
BEGINVN CA      ONE         # a verb or a noun is to be keyed
        TS      DSPLOCK
        TS      INSIGN
        CA      TWO
        TS      LEFT
        INDEX   INMODE
        CA      VNPOS -1
        TS      LASTPOS
        CA      ZERO
        INDEX   INMODE
        TS      VERBREG -1
        INDEX   LASTPOS
        TS      DIGITS
        INDEX   LASTPOS
        TS      DIGITS +1
        TCF     DISPJOB
VNPOS   DEC     18
        DEC     16
# A digit: VERBREG, NOUNREG or INVAL times ten, and the digit.
NUMBER  CA      MPAC
        MASK    LOW4
        TS      DIGIT
        CA      INSIGN
        EXTEND
        BZF     OCTAL
NUMBER1 CCS     LEFT
        TCF     +2
        TCF     DISPJOB     # no digit is wanted
        TS      LEFT
        AD      LASTPOS
        TS      DSPPOS
        INDEX   DIGIT
        CA      DIGCODE
        INDEX   DSPPOS
        TS      DIGITS
        CCS     INMODE
        TCF     +2
        TCF     +1
        TS      KIND        # 0 verb, 1 noun, 2 number
        INDEX   KIND
        CA      VERBREG
        EXTEND
        MP      TEN
        ADS     INOVER
        CA      L
        AD      DIGIT
        INDEX   KIND
        TS      VERBREG
        TCF     DISPJOB
        INCR    INOVER      # overflow
        TCF     DISPJOB
OCTAL   CS      SEVEN       # a number without a sign has neither 8 nor 9
        AD      DIGIT
        EXTEND
        BZMF    NUMBER1
WRONGKEY CA     BIT7        # OPR ERR
        EXTEND
        WOR     LAMPS
        TCF     DISPJOB
LOW4    OCT     17
DIGCODE 2OCT    0002500003
        2OCT    0003100033
        2OCT    0001700036
        2OCT    0003400023
        2OCT    0003500037
PLUS    CA      ONE
        TCF     +2
MINUS   CS      ONE
        TS      DIGIT
        CS      FIVE
        AD      LEFT
        EXTEND
        BZF     +2
        TCF     DISPJOB     # a sign comes before a number
        CA      DIGIT
        TS      INSIGN
        TC      DSPSIGN
        TCF     DISPJOB
# CLR: the number begins again; where nothing of it is keyed yet, the one before it does.
CLEAR   CCS     INMODE
        TCF     DISPJOB
        TCF     DISPJOB
        CS      FIVE
        AD      LEFT
        EXTEND
        BZF     +2
        TCF     BEGINREG
        CA      INSIGN
        EXTEND
        BZF     +2
        TCF     BEGINREG
        CA      REGNO
        EXTEND
        SU      FIRSTREG
        EXTEND
        BZF     BEGINREG
        CS      ONE
        ADS     REGNO
BEGINREG CA     REGNO       # register REGNO is to be keyed: it is blank, and the verb names it
        AD      TWENTY1
        TC      PUTVERB
        INDEX   REGNO
        CA      LASTPOSN
        TS      LASTPOS
        CA      FIVE
        TS      LEFT
        CA      ZERO
        TS      INSIGN
        TS      INVAL
        TS      INOVER
        INDEX   LASTPOS
        TS      DIGITS
        INDEX   LASTPOS
        TS      DIGITS +1
        INDEX   LASTPOS
        TS      DIGITS +2
        INDEX   LASTPOS
        TS      DIGITS +3
        INDEX   LASTPOS
        TS      DIGITS +4
        TC      DSPSIGN
        TCF     DISPJOB
LASTPOSN DEC    10
        DEC     5
        DEC     0
RSET    CA      ZERO        # both alarm codes go, the last one stays
        TS      FAILREG
        TS      FAILREG +1
        TS      SIGNS +13
        CS      BIT7
        EXTEND
        WAND    LAMPS
        TCF     DISPJOB
# KEY REL: from keys that are pressed over a monitor back to the monitor; else the program has the display again.
KEYREL  CA      MONNOUN
        EXTEND
        BZF     RELEASE
        TC      DOWNFLAG
        ADRES   V37BIT
        CA      ZERO
        TS      LEFT
        XCH     INMODE
        EXTEND
        BZF     RELEASE
        TCF     DISPJOB

# ENTR: a number is complete, or verb 37 has its program, or the verb is carried out.
ENTER   CCS     INMODE
        TCF     +3
        TCF     +2
        TCF     ENTDATA
        CA      V37BIT
        MASK    FLAGWRD1
        EXTEND
        BZF     +2
        TCF     ENTV37
        CA      ZERO
        TS      INMODE
        TS      LEFT
        TS      MONNOUN
        CA      ONE
        TS      DSPLOCK
        CA      LASTVERB    # through the table of verbs
ENTER1  TS      KIND
        INDEX   KIND
        CA      VERBTAB
        EXTEND
        SU      VERBREG
        EXTEND
        BZF     ENTER2
        CA      KIND
        EXTEND
        BZF     WRONGKEY
        AD      LESS2
        TCF     ENTER1
ENTER2  INDEX   KIND
        TCF     VERBTAB +1
LASTVERB DEC    24
VERBTAB DEC     5
        TCF     VERB05
        DEC     6
        TCF     VERB06
        DEC     16
        TCF     VERB16
        DEC     21
        TCF     LOAD
        DEC     22
        TCF     LOAD
        DEC     23
        TCF     LOAD
        DEC     24
        TCF     LOAD
        DEC     25
        TCF     LOAD
        DEC     33
        TCF     PROKEY
        DEC     34
        TCF     VERB34
        DEC     35
        TCF     VERB35
        DEC     36
        TCF     GOSTART
        DEC     37
        TCF     VERB37
VERB05  CA      ONE
        TCF     +2
VERB06  CA      ZERO
        TS      OCTFLAG
        TC      SHOWNOUN
        TCF     DISPJOB
VERB16  CA      ZERO
        TS      OCTFLAG
        TC      SHOWNOUN
        CA      NOUNREG
        TS      MONNOUN
        TCF     DISPJOB

# Verbs 21 to 25 load the registers FIRSTREG to LASTREG.
LOAD    TC      FIND
        CA      VERBREG
        DOUBLE
        EXTEND
        INDEX   A
        DCA     LOADREGS -52
        DXCH    FIRSTREG
        INDEX   NNPTR
        CA      NOUNTAB -4
        EXTEND
        MP      BIT8        # how many registers of it can be loaded
        EXTEND
        SU      LASTREG
        EXTEND
        BZMF    WRONGKEY
        CA      LESS3
        TS      INMODE
        CA      FIRSTREG
        TS      REGNO
        TCF     BEGINREG
LOADREGS 2OCT   0000000000
        2OCT    0000100001
        2OCT    0000200002
        2OCT    0000000001
        2OCT    0000000002
# A number is keyed: it wants a sign and five digits.
ENTDATA CA      INSIGN
        EXTEND
        BZF     ENTWRONG
        CA      LEFT
        AD      INOVER
        EXTEND
        BZF     +5
ENTWRONG CA     BIT7        # it begins again
        EXTEND
        WOR     LAMPS
        TCF     BEGINREG
        CA      NNPTR
        AD      REGNO
        INDEX   A
        CA      NOUNTAB -3
        TS      SHOWADR
        CA      INVAL
        EXTEND
        MP      INSIGN
        CA      L
        INDEX   SHOWADR
        TS      0
        CA      REGNO
        EXTEND
        SU      LASTREG
        EXTEND
        BZF     +3
        INCR    REGNO
        TCF     BEGINREG
        CA      NOUNREG     # all are there
        AD      LESS36
        EXTEND
        BZF     +2
        TCF     RELEASE
        CCS     AVEGFLG
        TCF     WRONGKEY    # guidance needs it
        CA      CLKH
        EXTEND
        MP      SIXTY
        CA      CLKM
        AD      L
        EXTEND
        MP      MINUTE
        DXCH    MPAC
        CA      CLKS
        TS      L
        CA      ZERO
        DAS     MPAC
        DXCH    MPAC
        DXCH    TIME2
RELEASE TC      FREEDISP
        TCF     DISPJOB
FREEDISP CS     V37BIT      # the crew has the display no more
        MASK    FLAGWRD1
        TS      FLAGWRD1
        CA      ZERO
        TS      INMODE
        TS      LEFT
        TS      MONNOUN
        TS      DSPLOCK
        TC      Q
MINUTE  DEC     6000
# Verbs 33 and 34, and PRO, answer the job that waits.
VERB34  CA      ZERO
        TCF     +2
PROKEY  CA      ONE
        TS      PROANS
        CA      PROWAIT
        EXTEND
        BZF     WRONGKEY    # nobody waits
        INHINT
        TC      JOBWAKE
        RELINT
        CA      ZERO
        TS      PROWAIT
        TCF     RELEASE
# Verb 35: all lamps for five seconds. Meanwhile T4RUPT writes eights.
VERB35  CA      LAMPBIT
        MASK    FLAGWRD1
        EXTEND
        BZF     +2
        TCF     DISPJOB
        TC      UPFLAG
        ADRES   LAMPBIT
        CA      ALLLAMPS
        EXTEND
        WOR     LAMPS
        INHINT
        CA      FIVESECS
        TC      WAITLIST
        2CADR   LAMPTASK
        TC      ENDOFJOB
LAMPTASK CS     LAMPBIT
        MASK    FLAGWRD1
        TS      FLAGWRD1
        CS      ALLLAMPS    # PROG and COMP ACTY are not in it
        EXTEND
        WAND    LAMPS
        TC      TASKOVER
FIVESECS DEC    500

# Verb 37 waits for the program's two digits in NOUN, and changes the program. What it begins, it begins by the phase
# table, as a restart does.
VERB37  CA      TWO
        TS      INMODE
        TC      UPFLAG
        ADRES   V37BIT
        TCF     BEGINVN
ENTV37  TC      FREEDISP
        CA      NOUNREG
        EXTEND
        BZF     GOTOP00
        AD      LESS64
        EXTEND
        BZF     GOTOP64
        AD      LESS1
        EXTEND
        BZF     GOTOP65
        AD      LESS1
        EXTEND
        BZF     GOTOP66
        AD      LESS4
        EXTEND
        BZF     GOTOP70
        AD      LESS1
        EXTEND
        BZF     GOTOP71
        AD      EIGHT
        EXTEND
        BZF     GOTOP63
        TCF     WRONGKEY
GOTOP63 CCS     AVEGFLG
        TCF     WRONGKEY
        TC      BANKCALL
        CADR    BRKCHK
        TC      PHASCHNG
        OCT     24
        TCF     RESTART
GOTOP64 CCS     AVEGFLG
        TCF     WRONGKEY    # it flies already
        TC      BANKCALL
        CADR    LOADCHK
        TC      PHASCHNG
        OCT     14
        TCF     RESTART
# P65 and P66, near the site and before an abort only. P66 begins with the altitude rate of this moment. P70 and P71, in
# flight; P70 not after P71, which drops its engine.
GOTOP65 CA      ZERO
        TS      MPAC
        CA      SIXTY5
        TCF     INFLIGHT
GOTOP66 CA      VZ          # 1/64 m/s, into 0.1 m/s
        EXTEND
        MP      TENBY64
        TS      MPAC
        CA      SIXTY6
        TCF     INFLIGHT
INFLIGHT TS     MPAC +1
        CCS     AVEGFLG
        TCF     +2
        TCF     WRONGKEY    # not on the ground
        CCS     ORBNAV
        TCF     WRONGKEY    # nor far from the site
        CS      SIXTY9
        AD      MODREG
        EXTEND
        BZMF    +2
        TCF     WRONGKEY    # nor from an abort
        CA      MPAC
        TS      RODCMD
        CA      ZERO
        TS      RODCOUNT
        CA      MPAC +1
        TS      MODREG
        CA      SIXTY
        TS      PDNOUN
        TCF     DISPJOB
GOTOP70 CS      SEVENTY1
        AD      MODREG
        EXTEND
        BZF     WRONGKEY
        CA      SEVENTY
        TCF     +2
GOTOP71 CA      SEVENTY1
        TS      MPAC +1
        CCS     AVEGFLG
        TCF     +2
        TCF     WRONGKEY
        CA      MPAC +1
        TS      MODREG
        CA      NINETY4
        TS      PDNOUN
        TCF     DISPJOB

# DISPJOB: PROG, what the crew's monitor or else the program shows, flash and KEY REL; after each key, too.
DISPJOB CA      TWENTY1
        TS      DSPPOS
        CA      MODREG
        TC      DSPTWO
        CCS     DSPLOCK
        TCF     CREW
        CCS     PROWAIT     # the program's
        CA      BIT6
        TS      DSPBITS
        CA      PDNOUN
        EXTEND
        BZF     DISPLAMP
        TS      NOUNREG
        CA      SIX
        TCF     DISPNOUN
CREW    CCS     PDNOUN
        CA      BIT5
        TS      DSPBITS
        CCS     INMODE
        TCF     +3
        TCF     MONITOR
        TCF     CREWLOAD
        CA      V37BIT      # a program or a number is awaited
        MASK    FLAGWRD1
        EXTEND
        BZF     CREWLOAD +1
CREWLOAD CA     BIT6
        ADS     DSPBITS
        TCF     DISPLAMP
MONITOR CA      MONNOUN
        EXTEND
        BZF     DISPLAMP
        TS      NOUNREG
        CA      SIXTEEN
DISPNOUN TS     VERBREG
        TC      PUTVERB
        CA      ZERO
        TS      OCTFLAG
        TC      SHOWNOUN
DISPLAMP CA     LAMPBIT
        MASK    FLAGWRD1
        EXTEND
        BZF     +2
        TC      ENDOFJOB
        INHINT
        CS      KRFLASH
        EXTEND
        RAND    LAMPS
        AD      DSPBITS
        EXTEND
        WRITE   LAMPS
        TC      ENDOFJOB
KRFLASH OCT     60

# DSPTWO: two digits of the number in A, below 100, from the place in DSPPOS down; PUTVERB: in VERB.
PUTVERB TS      L
        CA      NINETEEN
        TS      DSPPOS
        CA      L
DSPTWO  EXTEND
        MP      TENTH
        LXCH    MPAC +6
        INDEX   A
        CA      DIGCODE
        INDEX   DSPPOS
        TS      DIGITS
        CA      MPAC +6
        EXTEND
        MP      TEN
        INDEX   A
        CA      DIGCODE
        INDEX   DSPPOS
        TS      DIGITS -1
        TC      Q
TENTH   DEC     1639
# DSPSIGN: at register REGNO a plus or minus, as A is plus or minus; none for +0.
DSPSIGN ZL
        TS      MPAC +6
        INDEX   REGNO
        CA      SIGNROWS
        TS      DIGIT
        CCS     MPAC +6
        TCF     +4
        TCF     +5
        CA      BIT11
        TCF     +3
        CA      BIT11
        XCH     L
        INDEX   DIGIT       # minus, and plus one row on
        DXCH    SIGNS
        TC      Q
SIGNROWS DEC    5
        DEC     3
        DEC     0

# A noun's four words: how many registers can be loaded, and its number; the cells of its registers. A minus is before
# those in 1/64, which are shown in 1/10.
NOUNTAB VN      0061        # 61 far from the site: time to go (xxxx.x s), place forward of it (xxxx.x km), mass (kg)
        ADRES   BRKTGO
        ADRES   BRKWAY
        ADRES   MASS
        VN      0063        # 63 there: forward speed (m/s), altitude rate (xxxx.x m/s), altitude (m)
        ADRES   SPEEDMS
        ADRES   ALTRATE
        ADRES   BRKALT
        VN      0044        # 44: apolune, perilune (xxxx.x km), forward speed (m/s)
        ADRES   APOLUNE
        ADRES   PERILUNE
        ADRES   SPEEDMS
        VN      0094        # 94: speed to be gained (m/s), altitude rate (xxxx.x m/s), altitude (xxx.xx km)
        ADRES   VGODISP
        ADRES   ALTRATE
        ADRES   ALTKM
        VN      0009        # 09: alarm codes, octal
        ADRES   FAILREG
        ADRES   FAILREG +1
        ADRES   FAILREG +2
        VN      0336        # 36: the clock: hours, minutes, seconds (xxx.xx)
        ADRES   CLKH
        ADRES   CLKM
        ADRES   CLKS
        VN      0047        # 47: mass, mass as predicted for low gate, and for the ground (kg)
        ADRES   MASS
        ADRES   PMASS
        ADRES   TMASS
        VN      0063        # 63, and all that follow, near the site: forward speed, altitude rate, altitude
        -ADRES  VX
        -ADRES  VZ
        ADRES   ZN
        VN      0061        # 61: time to go (xxxx.x s), place forward of the site (m), mass (kg)
        -ADRES  TGO
        ADRES   XN
        ADRES   MASS
        VN      0166        # 66: the rate that the crew commands (xxxx.x m/s), altitude rate, altitude
        ADRES   RODCMD
        -ADRES  VZ
        ADRES   ZN
        VN      0169        # 69: how far the site is moved forward (m), place forward of the site (m), time to go
        ADRES   LSCORR
        ADRES   XN
        -ADRES  TGO
        VN      0068        # 68: slant range to the site (m), time to go, radar less altitude (m)
        ADRES   RANGE
        -ADRES  TGO
        ADRES   DHM
        VN      0060        # 60: forward speed (xxxx.x m/s), altitude rate (xxxx.x m/s), altitude (m)
        -ADRES  VX
        -ADRES  VZ
        ADRES   ZN
        VN      0064        # 64: the landing point's angle (degrees), altitude rate, altitude
        ADRES   LPDANG
        -ADRES  VZ
        ADRES   ZN
NOUNLAST DEC    56          # where the last one begins, and 4
ORBLAST DEC     28          # the same of the last one for the units of an orbit
SEVENTY1 DEC    71
NINETY4 DEC     94

# FIND: NNPTR = the place of noun NOUNREG in NOUNTAB, and 4. Without such a noun the key was wrong. In an abort nouns 61 and
# 63 are none.
FINDORB CS      SIXTY9
        AD      MODREG
        EXTEND
        BZMF    FINDFAR
        CS      SIXTY
        AD      NOUNREG
        EXTEND
        BZMF    FINDFAR
        CS      SEVENTY
        AD      NOUNREG
        EXTEND
        BZMF    WRONGKEY
FINDFAR CA      ORBLAST
        TCF     FIND1
FIND    CCS     ORBNAV
        TCF     FINDORB
        CA      NOUNLAST
FIND1   TS      NNPTR
        INDEX   NNPTR
        CA      NOUNTAB -4
        MASK    LOW7
        EXTEND
        SU      NOUNREG
        EXTEND
        BZF     FOUND
        CS      FOUR
        AD      NNPTR
        EXTEND
        BZF     WRONGKEY
        TCF     FIND1
FOUND   TC      Q
LOW7    OCT     177

# SHOWNOUN: noun NOUNREG in NOUN and in the three registers. In decimal, a number's share of 100000 is multiplied by ten
# five times, and what comes before the point is the digit; in octal, its share of 32768 by eight.
SHOWNOUN EXTEND
        QXCH    SHOWQ
        TC      FIND
        CS      NINE        # noun 09 is octal
        AD      NOUNREG
        AD      OCTFLAG
        EXTEND
        BZF     WRONGKEY
        CA      NOUNREG
        AD      LESS36
        EXTEND
        BZF     CLOCK
SHOW1   CA      SEVENTEN
        TS      DSPPOS
        CA      NOUNREG
        TC      DSPTWO
        CA      TWO
SHOW2   TS      REGNO
        CA      NNPTR
        AD      REGNO
        INDEX   A
        CA      NOUNTAB -3
        TS      SHOWADR
        CA      ZERO
        TS      KIND
        CS      SHOWADR
        EXTEND
        BZMF    +4
        TS      SHOWADR
        CA      TWO
        TS      KIND
        INDEX   SHOWADR
        CA      0
        TS      MPAC
        CCS     OCTFLAG
        TCF     SHOWOCT
        CA      MPAC
        EXTEND
        BZF     +2
        TCF     +2
        CA      ONE
        TC      DSPSIGN
        CCS     MPAC
        AD      ONE
        TCF     +2
        AD      ONE
        TS      MPAC
        EXTEND
        INDEX   KIND
        MP      SHARES +1
        AD      ROUND
        TS      L
        CA      ZERO
        DXCH    MPAC +2
        CA      MPAC
        EXTEND
        INDEX   KIND
        MP      SHARES
        DAS     MPAC +2
        CA      TEN
        TCF     SHOW5
SHOWOCT CA      ZERO
        TC      DSPSIGN
        CA      MPAC
        TS      CYR
        CA      CYR
        MASK    POSMAX
        TS      MPAC +2
        CA      MPAC
        MASK    ONE
        EXTEND
        MP      HALF
        LXCH    MPAC +3
        CA      EIGHT
SHOW5   TS      MPAC +4
        CA      FOUR
SHOW6   TS      MPAC +5
        INDEX   REGNO
        AD      LASTPOSN
        TS      DSPPOS
        CA      MPAC +3
        EXTEND
        MP      MPAC +4
        LXCH    MPAC +3
        TS      MPAC +6
        CA      MPAC +2
        EXTEND
        MP      MPAC +4
        TS      DIGIT
        CA      L
        AD      MPAC +6
        TS      MPAC +2
        CA      ZERO
        AD      DIGIT       # and a carry
        INDEX   A
        CA      DIGCODE
        INDEX   DSPPOS
        TS      DIGITS
        CCS     MPAC +5
        TCF     SHOW6
        CCS     REGNO
        TCF     SHOW2
        TC      SHOWQ
SHARES  2DEC    .16384      # a whole number
        2DEC    .0256       # 10 by 64 of it
ROUND   DEC     1342        # 0.000005

# CLOCK: the clock's hours, minutes and hundredths of a second.
CLOCK   CA      MINUTE
        TS      DIVISOR
        EXTEND
        DCA     TIME2
        DXCH    MPAC
        TC      DIVS
        LXCH    CLKS
        TS      L           # minutes
        CA      SIXTY
        TS      DIVISOR
        CA      ZERO
        EXTEND
        DV      DIVISOR
        TS      CLKH
        LXCH    CLKM
        TCF     SHOW1

# ---- bank 05: SERVICER, guidance and the programs
        BANK    05
# SERVICER: the job of each second. It takes the state into its VAC area and works it on by what READACCS has collected,
# and then, under INHINT, puts it back and takes the collected away, so that a restart finds either all of it or nothing.
SERVICER CA     NINE
SERV1   TS      TEMA
        AD      PUSHLOC
        TS      TEMB
        INDEX   TEMA
        CA      XN
        INDEX   TEMB
        TS      1
        CCS     TEMA
        TCF     SERV1
        INHINT
        EXTEND
        DCA     DELVX
        DXCH    USEDX
        CA      DELT
        TS      USEDT
        RELINT
        EXTEND
        BZF     GUIDE       # no time has gone by
        EXTEND
        MP      CENTI       # hundredths of a second into our steps
        DDOUBL
        DDOUBL
        TS      STEPDT
        CCS     ORBNAV
        TCF     ORBITS      # in the units of an orbit the state is worked on apart
        CA      USEDX       # a pulse is 0.0585 m/s, 3.744 of our units
        DOUBLE
        EXTEND
        MP      PULSE
        DXCH    MPAC
        CA      PUSHLOC
        TS      BLK
        TC      STEP
        CA      USEDZ
        DOUBLE
        EXTEND
        MP      PULSE
        DXCH    MPAC
        CS      STEPDT
        EXTEND
        MP      FALL
        DAS     MPAC
        CA      FOUR
        AD      PUSHLOC
        TS      BLK
        TC      STEP
        CA      FCMD
        TC      BURN
# DVMON: an engine that is on gives five pulses a second at least. Three seconds with less are an alarm.
        CA      USEDT
        AD      LESS50
        EXTEND
        BZMF    DVDONE      # too short to tell
        CA      USEDX
        TC      ABS
        TS      TEMA
        CA      USEDZ
        TC      ABS
        AD      TEMA
        AD      LESS4
        EXTEND
        BZMF    +4
        CA      ZERO
        TS      NOTHRUST
        TCF     DVDONE
        INCR    NOTHRUST
        CS      THREE
        AD      NOTHRUST
        EXTEND
        BZF     +2
        TCF     DVDONE
        TC      ALARM
        OCT     3002
DVDONE  INDEX   PUSHLOC     # 400 kg of fuel are left: an alarm, once
        CS      11
        AD      LEAST
        EXTEND
        BZMF    FUELDONE
        CA      FUELBIT
        MASK    FLAGWRD1
        EXTEND
        BZF     +2
        TCF     FUELDONE
        TC      UPFLAG
        ADRES   FUELBIT
        TC      ALARM
        OCT     3004
# The radar: a difference below 200 m counts. A quarter of it goes to the altitude, and 0.04 of it a second to its rate.
# If it is more than 2 m and a 32nd of the altitude, the load was wrong: the altitude becomes the radar's, the rate
# stays.
FUELDONE CA     ZERO        # what comes after this is too late
        EXTEND
        WRITE   CHAN13
        TS      RADLAMPS
        XCH     RADGOT
        TS      USEDRAD
        EXTEND
        BZF     LOSTRAD     # it has no altitude
        CA      RADWORD
        EXTEND
        MP      BIT13       # in m
        DXCH    MPAC
        EXTEND
        INDEX   BLK
        DCS     1
        DAS     MPAC
        CA      MPAC
        TS      DHM
        TC      LIMIT
        DEC     199
        EXTEND
        SU      DHM
        EXTEND
        BZF     +2
        TCF     LOSTRAD
        CA      DHM
        TC      ABS
        TS      TEMA
        INDEX   BLK
        CA      1
        EXTEND
        MP      BIT10
        AD      TWO
        COM
        AD      TEMA
        EXTEND
        BZMF    NEARRAD
        EXTEND
        DCA     MPAC
        INDEX   BLK
        DAS     1
        TCF     RADDONE
NEARRAD EXTEND
        DCA     MPAC
        DDOUBL
        DDOUBL
        TS      TEMA        # in 1/4 m
        EXTEND
        MP      BIT11
        INDEX   BLK
        DAS     1
        CA      TEMA
        EXTEND
        MP      RATEGAIN
        INDEX   BLK
        DAS     3
RADDONE CA      ZERO
        TS      NORADAR
        TCF     RADVEL
LOSTRAD CA      BIT5        # ALT lights; six times without its altitude are an alarm
        TS      RADLAMPS
        INCR    NORADAR
        CS      SIX
        AD      NORADAR
        EXTEND
        BZF     +2
        TCF     RADVEL
        TC      ALARM
        OCT     521
# The radar's speeds, up to 90 degrees of tilt. A metre along the craft's upward axis has a forward part, the sine of the
# tilt, and an upward part, its cosine; one along its forward axis has the cosine and less the sine.
RADVEL  CS      THREE
        AD      USEDRAD
        EXTEND
        BZF     +2
        TCF     LOSTVEL
        CA      CDUY
        EXTEND
        MSU     ZERO
        TC      LIMIT
        DEC     8191
        TS      TILT
        TC      SINE
        TS      UFWD
        CA      TILT
        TC      ABS
        COM
        AD      UPRIGHT
        TC      SINE
        TS      UUP
        CA      RADWORD +2
        TC      RADAXIS
        CS      UFWD
        XCH     UUP
        TS      UFWD
        CA      RADWORD +1
        TC      RADAXIS
        TCF     REDESIGN
LOSTVEL CA      BIT3        # VEL lights
        ADS     RADLAMPS
# Redesignation, in P64: a click of the hand controller moves the site by a 32nd of the way to it.
REDESIGN CA     ZERO
        XCH     REDCOUNT
        TC      LIMIT
        DEC     8
        TS      TEMA
        CS      SIXTY4
        AD      MODREG
        EXTEND
        BZF     +2
        TCF     SERVOUT
        INDEX   PUSHLOC
        CS      1
        EXTEND
        MP      BIT10
        EXTEND
        MP      TEMA
        CA      L
        ADS     LSCORR
SERVOUT INHINT
        CA      BIT9        # PROG stays as it is
        MASK    SIGNS +13
        AD      RADLAMPS
        TS      SIGNS +13
        CA      NINE
SERV2   TS      TEMA
        AD      PUSHLOC
        TS      TEMB
        INDEX   TEMB
        CA      1
        INDEX   TEMA
        TS      XN
        CCS     TEMA
        TCF     SERV2
        CS      USEDX
        ADS     DELVX
        CS      USEDZ
        ADS     DELVZ
        CS      USEDT
        ADS     DELT
        CA      LSCORR      # the crew's correction of the site
        TC      LIMIT
        DEC     2000
        COM
        ADS     XN
        CA      ZERO
        TS      LSCORR
        RELINT
# What the law of the program wants, by SWCALL. When fuel is low, the program becomes P70, unless the ground is near. P70
# and P71 have a law that steers, too.
GUIDE   CS      SIXTY9
        AD      MODREG
        EXTEND
        BZMF    +2
        TCF     ABORTS
        CA      FUELBIT
        MASK    FLAGWRD1
        EXTEND
        BZF     GUIDE1
        CS      ZN
        AD      SIXTY
        EXTEND
        BZMF    ABORT
GUIDE1  CA      ONE
        TS      PROGNO
        CS      SIXTY4
        AD      MODREG
        EXTEND
        BZF     +2
        TCF     GUIDE3
        CA      ZERO
        TS      PROGNO
        TCF     GUIDE2
GUIDE3  AD      ONE
        EXTEND
        BZF     +2
        TCF     GUIDE2
        CA      TWO
        TS      PROGNO
GUIDE2  INDEX   PROGNO
        CA      LAWTAB
        TC      SWCALL

# Steering: the craft turns to the angle of the acceleration that is wanted, with gravity. Its magnitude times the mass
# is the thrust.
STEER   TC      THRUST
        TS      FCMD
        TC      TILTFOR
        TS      THETAD
        INHINT
        CCS     AVEGFLG     # a leg may have touched the ground meanwhile
        TCF     +2
        TC      ENDOFJOB
        CA      FCMD
        EXTEND
        WRITE   THROTTLE
        CA      PRIO30
        TC      NOVAC
        2CADR   DISPJOB
        RELINT
        CCS     NEWJOB
        TC      CHANG1
        CS      SIXTY4      # in P64, the angle of the landing point, and the way ahead
        AD      MODREG
        EXTEND
        BZF     +2
        TC      ENDOFJOB
        TC      BANKCALL
        CADR    LPDANGLE
        CA      PRIO14      # it has time: the next second's guidance comes first
        TC      PRIOCHNG
        INHINT
        CA      BIT7        # the superbank on, until the next job begins
        EXTEND
        WRITE   SUPERBNK
        RELINT
        EXTEND
        DCA     PREDADR
        DTCB
PREDADR 2CADR   PREDICT
# RADAXIS: a speed along an axis, in A, corrects the state in the VAC area. Half of what it has more than the state goes
# to MPAC, and so a quarter to the state. More than 3 m/s and an eighth of the speed are left out.
RADAXIS EXTEND
        QXCH    LAWQ
        TS      TEMC
        EXTEND
        MP      HALF
        DXCH    MPAC
        INDEX   PUSHLOC
        CS      3
        EXTEND
        MP      UFWD
        DAS     MPAC
        INDEX   PUSHLOC
        CS      7
        EXTEND
        MP      UUP
        DAS     MPAC
        CA      TEMC
        TC      ABS
        EXTEND
        MP      BIT11
        AD      NINETY6     # half of 3 m/s
        COM
        TS      TEMC
        CA      MPAC
        TC      ABS
        AD      TEMC
        EXTEND
        BZMF    +2
        TCF     RADAXIS1
        CA      MPAC
        EXTEND
        MP      UFWD
        INDEX   PUSHLOC
        DAS     3
        CA      MPAC
        EXTEND
        MP      UUP
        INDEX   PUSHLOC
        DAS     7
        TC      LAWQ
RADAXIS1 CS     BIT3        # VEL lights
        MASK    RADLAMPS
        AD      BIT3
        TS      RADLAMPS
        TC      LAWQ
UPRIGHT DEC     8191
CENTI   DEC     .64
PULSE   DEC     .936        # with two pulses half of what they bring
FALL    DEC     .2025       # half of what gravity brings
RATEGAIN DEC    .64         # 0.04 a second of a quarter metre, in 1/64 m/s
LAWTAB  CADR    P64LAW      # by PROGNO
        CADR    P66LAW
        CADR    P63LAW
LESS50  DEC     -50
LEAST   DEC     6900

# P63 and P64: V06N61 flashes until PRO; then the engine is on, and guidance begins, by the phase table.
P64TASK CA      PRIO20
        TC      NOVAC
        2CADR   P64JOB
        TC      TASKOVER
P63TASK CA      PRIO20
        TC      NOVAC
        2CADR   P63JOB
        TC      TASKOVER
P63JOB  TC      BANKCALL
        CADR    BRKBEGIN
        CA      SIXTY3
        TCF     +2
P64JOB  CA      SIXTY4
        TS      MODREG
        CA      SIXTY1
        TS      PDNOUN
        INHINT
        CA      PRIO30
        TC      NOVAC
        2CADR   DISPJOB
        CA      WAKEADR
        TS      PROWAIT
        TC      JOBSLEEP
WAKEADR ADRES   P64WAKE
P64WAKE INHINT
        CA      ZERO        # group 4 is done. PHASCHNG would let an alarm come before group 5 is at work
        TS      NPHASE4
        TS      PHASE4
        CCS     PROANS
        TCF     IGNITION
        TCF     GOTOP00     # terminated
IGNITION CA     BIT13
        EXTEND
        WOR     LAMPS       # the order that turns the engine on
        CA      ZERO
        TS      PIPAX
        TS      PIPAZ
        TS      DELVX
        TS      DELVZ
        TS      DELT
        TS      SUMX
        TS      SUMZ
        TS      LASTX
        TS      LASTZ
        TS      NOTHRUST
        TS      NORADAR
        TS      RADGOT
        TS      REDCOUNT
        CS      FLIGHTBT
        MASK    FLAGWRD1
        TS      FLAGWRD1
        CA      CDUY
        EXTEND
        MSU     ZERO
        TS      DAPLAST
        TS      THETAD
        CA      ONE
        TS      AVEGFLG
        TS      DAPON
        CA      TIME1
        TS      PIPTIME
        CA      MODREG      # noun 63 or 64
        TS      PDNOUN
        TC      PHASCHNG
        OCT     15
        TCF     RESTART
FLIGHTBT OCT    14
SIXTY3  DEC     63

# P68: on the ground. 0.9 s after the autopilot's last look, P68TASK starts P68JOB, which has the touchdown judged. The
# display stays with the crew, or shows noun 60 once more.
P68TASK CA      ZERO
        TS      TOUCHT
        CS      LASTT
        AD      TIME1
        AD      POSMAX      # as in READACCS
        AD      ONE
        ADS     TOUCHT
        CS      NINETY
        AD      TOUCHT
        EXTEND
        BZMF    P68WAIT
        CA      PRIO30
        TC      NOVAC
        2CADR   P68JOB
        TC      TASKOVER
P68WAIT TC      FIXDELAY
        DEC     10
        TCF     P68TASK
P68JOB  TC      BANKCALL
        CADR    JUDGE
        TS      MODREG
        TC      PHASCHNG
        OCT     23
P68SHOW CCS     ORBNAV
        TCF     P68ORB
        CA      SIXTY
        TS      PDNOUN
        TC      POSTJUMP
        CADR    DISPJOB
P68AGAIN CA     PRIO30      # after a restart
        TC      NOVAC
        2CADR   P68SHOW
        TC      TASKOVER
P68ORB  CA      NOUN94
        TCF     P68SHOW +3
ABORT   CA      SEVENTY
        TS      MODREG
        CA      NOUN94
        TS      PDNOUN
ABORTS  TC      POSTJUMP
        CADR    ABORTLAW
ORBITS  TC      POSTJUMP
        CADR    ORBSTEP
NOUN94  DEC     94

# ---- bank 07: the laws of the programs. Each takes the state, and gives AX and AZ. Called by SWCALL.
        BANK    07
# P64: time to go is 3 way/(speed + 2 target speed), for which the forward acceleration becomes linear in time and ends
# at zero. At 12 s to go, or past the site, P65 begins. The craft never descends faster than by 2 m/s and a twentieth,
# each second, of its altitude over a line that begins 30 m above the site and rises by 1 in 40.
P64LAW  EXTEND
        QXCH    PROGQ
P64     CA      VX
        AD      TWOVTX
        TC      ATLEAST
        DEC     64          # 1 m/s
        TS      DIVISOR
        EXTEND
        DCS     XN
        DXCH    MPAC
        CA      MPAC
        EXTEND
        BZMF    LOWGATE
        TC      DIVS
        EXTEND
        MP      THREEBY4
        TS      TGO
        TS      LAWT
        AD      LESS12SC
        EXTEND
        BZMF    LOWGATE
        CA      FOUR
        TC      LAW
        TS      TEMC
        CA      ZERO
        TC      LAW
        CA      ZN
        TC      ATMOST
        DEC     1150
        TS      TEMA
        CA      XN
        EXTEND
        MP      FORTIETH
        AD      LESS30
        AD      TEMA
        EXTEND
        MP      EIGHTHS
        DOUBLE
        DOUBLE
        AD      SINK
        COM
        TC      RATELAW
        EXTEND
        SU      TEMC
        EXTEND
        BZMF    +2
        TCF     LAWDONE
        CA      TEMC
        TS      AZ
        TCF     LAWDONE
# Low gate: where the craft will be after 16 s at its speed, P65 about lands. If that is 100 m from the site or more, the site
# cannot be reached.
LOWGATE CA      SIXTY5
        TS      MODREG
        CA      SIXTY
        TS      PDNOUN
        CA      ZERO
        TS      RODCOUNT
        CA      VX
        EXTEND
        MP      BIT13
        AD      XN
        TC      ABS
        AD      LESS100
        EXTEND
        BZMF    P66
        CA      SITEBIT
        MASK    FLAGWRD1
        EXTEND
        BZF     +2
        TCF     P66
        TC      UPFLAG
        ADRES   SITEBIT
        TC      ALARM
        OCT     3003
        TCF     P66
# P65 and P66: the altitude rate goes to the crew's with 1.6 s, or to -(0.8 m/s + altitude/32 s), 30.8 m/s at most.
# While the craft is fast forward, it descends less: in P65 by half of what its speed has over 0.5 m/s + altitude/8 s, in
# P66 by twice of what it has over 0.5 m/s + altitude/16 s. A click of the switch for the rate of descent begins P66 with
# the rate of this moment. It changes the crew's rate by 0.3 m/s.
P66LAW  EXTEND
        QXCH    PROGQ
P66     CS      SIXTY6
        AD      MODREG
        EXTEND
        BZF     RODCREW
        CA      RODCOUNT
        EXTEND
        BZF     RODAUTO
        CA      SIXTY6
        TS      MODREG
        CA      VZ
        EXTEND
        MP      TENBY64
        TS      RODCMD
RODCREW CA      ZERO
        XCH     RODCOUNT
        EXTEND
        MP      THREE
        CA      L
        AD      RODCMD
        TC      LIMIT       # 6.4 of our units in a tenth of a m/s; 10 m/s at most
        DEC     100
        TS      RODCMD
        EXTEND
        MP      EIGHTHS
        DDOUBL
        DDOUBL
        DDOUBL
        TS      RODMOST
        CA      ZN          # but not faster down than 0.8 m/s + altitude/8 s
        TC      ATMOST
        DEC     960
        TC      ATLEAST
        DEC     0
        TS      TEMA
        EXTEND
        MP      EIGHT
        CA      L
        AD      ROD0
        AD      RODMOST     # minus: the crew wants more
        TC      ATMOST
        DEC     0
        EXTEND
        SU      RODMOST
        EXTEND              # a rate up is as the crew wants it
        BZMF    RODUP
        TS      RODMOST
        CA      TEMA
        DOUBLE
        DOUBLE
        AD      ROD1
        TS      TEMA
        CA      VX
        TC      ABS
        EXTEND
        SU      TEMA
        TC      ATMOST
        DEC     1280        # 20 m/s
        DOUBLE
        TCF     RODLESS
RODUP   COM
RODSET  TC      RATELAW
# The forward speed goes to zero: with 8 s by 0.35 m/s/s at most, or with 16 s by 1.2 m/s/s at most, whichever is more.
        CS      VX
        TC      LIMIT
        DEC     179
        DOUBLE
        TS      AX
        CA      VX
        TC      ABS
        AD      LESS358
        EXTEND
        BZMF    LAWDONE
        CS      VX
        TC      LIMIT
        DEC     1228
        TS      AX
        CA      AZ          # with gravity, as in THRUST: forward at most as much, for a tilt of 45 degrees near the ground
        AD      GRAVITY
        TC      ATLEAST
        DEC     512
        TS      TEMA
        CA      AX
        EXTEND
        BZMF    +7
        EXTEND
        SU      TEMA
        EXTEND
        BZMF    LAWDONE
        CA      TEMA
        TCF     +6
        AD      TEMA
        EXTEND
        BZMF    +2
        TCF     LAWDONE
        CS      TEMA
        TS      AX
LAWDONE INDEX   PROGQ
        TC      0
RODAUTO CA      ZN
        TC      ATMOST
        DEC     960
        TC      ATLEAST
        DEC     0
        TS      TEMA
        DOUBLE
        AD      ROD0
        TS      RODMOST     # the rate down
        CA      TEMA
        DOUBLE
        DOUBLE
        DOUBLE
        AD      ROD1
        TS      TEMA        # the forward speed that is no matter yet
        CA      VX
        TC      ABS
        EXTEND
        SU      TEMA
        EXTEND
        MP      HALF
RODLESS TC      ATLEAST
        DEC     0
        EXTEND
        SU      RODMOST
        TC      ATMOST
        DEC     0
        TCF     RODSET
# RATELAW: AZ, so that the altitude rate goes to A with 1.6 s.
RATELAW EXTEND
        QXCH    LAWQ
        EXTEND
        SU      VZ
        TC      LIMIT
        DEC     307         # 3 m/s/s
        EXTEND
        MP      TEN
        CA      L
        TS      AZ
        TC      LAWQ

# P63, the end of the braking phase: to high gate, 7500 m before the site, 2300 m up, at 150 m/s forward. The time to go is
# that at the mean of both speeds. The craft brakes evenly, never forward, and goes straight down to that altitude, never up;
# its rate goes to that with 12.8 s. Two seconds before high gate P64 begins. What comes before is BRAKE, in the units of an orbit.
P63LAW  CCS     ORBNAV
        TC      ENDOFJOB    # no time has gone by since then
        EXTEND
        QXCH    PROGQ
        CS      XN
        AD      LESS7500
        TC      ATLEAST
        DEC     0
        ZL
        DXCH    MPAC        # the way to high gate
        CA      VX
        EXTEND
        MP      HALF
        AD      HALFVHG
        TC      ATLEAST
        DEC     64
        TS      DIVISOR
        TC      DIVS
        EXTEND
        MP      BIT13
        TS      TGO
        TS      DIVISOR
        AD      LESS2SEC
        EXTEND
        BZMF    HIGHGATE
        CS      VX
        AD      VHG
        EXTEND
        MP      BIT13
        DXCH    MPAC
        TC      DIVS        # in 2 to the -12 m/s/s
        EXTEND
        MP      BIT13
        TC      ATMOST
        DEC     0
        TS      AX
        CS      ZN
        AD      HHG
        ZL
        DXCH    MPAC
        TC      DIVS
        EXTEND
        MP      BIT13
        TC      ATMOST
        DEC     0
        EXTEND
        SU      VZ
        EXTEND
        MP      BIT12
        AD      VZ
        TC      RATELAW
        TCF     LAWDONE
HIGHGATE CA     SIXTEEN
        DOUBLE
        DOUBLE
        TS      MODREG      # 64, the program
        TS      PDNOUN      # and the noun
        TCF     P64
LESS7500 DEC    -7500
HALFVHG DEC     4800
VHG     DEC     9600
HHG     DEC     2300
LESS2SEC DEC    -128
TWOVTX  DEC     256
THREEBY4 DEC    .75
LESS12SC DEC    -768
ROD0    DEC     51          # 0.8 m/s
ROD1    DEC     32          # 0.5 m/s
FORTIETH DEC    .025
EIGHTHS DEC     .8
LESS30  DEC     -30
SINK    DEC     128         # 2 m/s
LESS100 DEC     -100
LESS358 DEC     -358

# ---- bank 06: fresh start, P00 and restart, and what BANKCALL calls
        BANK    06
# FRESH, after power on or verb 36: all is given up but the state, the clock and the last alarm code. GOP00, program 00:
# the display stays as well. GORESTRT, after an alarm or where a program begins: jobs and tasks are dropped, and what
# the phase table names for each group at work begins again. A phase that does not match its complement leads to a fresh
# start.
FRESH   TC      ENGOFF
        CA      ALLCELLS
        TCF     START1
GOP00   TC      ENGOFF
        CA      P00CELLS
        TCF     START1
GORESTRT CA     FOUR
START1  TS      RSTI        # the cells from T3MORE up to there: +0
        CA      ZERO
        INDEX   RSTI
        TS      T3MORE
        CCS     RSTI
        TCF     START1
        CA      ZERO
        TS      NEWJOB
        CS      RESTBITS
        MASK    FLAGWRD1
        TS      FLAGWRD1
        CA      SEVEN       # no task
START2  TS      RSTI
        CA      DT80S
        INDEX   RSTI
        TS      LST1
        CCS     RSTI
        TCF     START2
        CA      SIXTEEN
START3  TS      RSTI
        EXTEND
        DCA     DUMMY
        INDEX   RSTI
        DXCH    LST2
        CA      RSTI
        EXTEND
        BZF     +3
        AD      LESS2
        TCF     START3
        CA      ZERO        # no job
        TS      LOCCTR
START4  CS      ZERO
        INDEX   LOCCTR
        TS      PRIORITY
        CA      TWELVE
        ADS     LOCCTR
        AD      LESS84
        EXTEND
        BZMF    START4
        CA      VAC1ADR     # no VAC area in use
        TS      VAC1USE
        AD      VACSIZE
        TS      VAC2USE
        AD      VACSIZE
        TS      VAC3USE
        AD      VACSIZE
        TS      VAC4USE
        AD      VACSIZE
        TS      VAC5USE
        CS      ALLLAMPS
        EXTEND
        WAND    LAMPS
        CA      TIME3ST
        TS      TIME3
        CA      T4DT
        TS      TIME4
        CA      T5DT
        TS      TIME5
        CA      SEVEN       # after READACCS
        TC      WAITLIST
        2CADR   MONTASK
        CA      FOUR
GROUPS  TS      RSTI        # 4, 2, 0: the groups 5, 4 and 3
        INDEX   RSTI
        CA      NPHASE3
        INDEX   RSTI
        AD      PHASE3
        EXTEND
        BZF     +4
        CA      ALM1107
        TC      SETALARM
        TCF     FRESH
        INDEX   RSTI
        CA      PHASE3
        EXTEND
        BZF     GROUPEND    # nothing of this group was at work
        AD      RSTI
        DOUBLE
        EXTEND
        INDEX   A
        DCA     PHASETAB -2
        DXCH    NEWLOC
        CA      TWO
        TS      WAITDT
        CA      GROUPRET
        TCF     WAIT1
GROUPEND CA     RSTI
        EXTEND
        BZF     EJSCAN
        AD      LESS2
        TCF     GROUPS
GROUPRET ADRES  GROUPEND
PHASETAB 2CADR  P68TASK     # the phase table: the tasks of phases 1 and 2, for group 3,
        2CADR   P68AGAIN
        2CADR   P64TASK     # 4,
        2CADR   P63TASK
        2CADR   GUIDTASK    # and 5
        2CADR   GUIDTASK
P00CELLS DEC    14          # up to PDNOUN
ALLCELLS DEC    55          # up to the second alarm code
VAC1ADR ADRES   VAC1USE
VACSIZE DEC     20
TIME3ST DEC     8384        # 80 seconds to the carry
ALM1107 OCT     1107

# LOADCHK: is the load a craft's? Its altitude is above -64 m, its mass 6500 to 9000 kg. After an abort it is none.
LOADCHK CCS     ORBNAV
        TCF     BADLOAD
        CA      ZN
        AD      SIXTY4
        EXTEND
        BZMF    BADLOAD
        CA      MASS
        AD      LESS6500
        EXTEND
        BZMF    BADLOAD
        AD      LESS2500
        EXTEND
        BZMF    +3
BADLOAD TC      POODOO
        OCT     3005
        TC      Q
# BRKCHK: the same for P63. Its load may be in the units of an orbit: its altitude is up to 16.4 km then, its mass 12,500 to
# 15,500 kg: with less nobody lands from there.
BRKCHK  CS      TWO
        AD      ORBNAV
        EXTEND
        BZF     +2
        TCF     LOADCHK
        CA      ZN
        EXTEND
        BZMF    BADLOAD
        AD      LESS512
        EXTEND
        BZMF    +2
        TCF     BADLOAD
        CA      MASS
        AD      LESS12T5
        EXTEND
        BZMF    BADLOAD
        AD      LESS3000
        EXTEND
        BZMF    +2
        TCF     BADLOAD
        TC      Q
LESS512 DEC     -512
LESS6500 DEC    -6500
LESS2500 DEC    -2500
LESS3000 DEC    -3000

# JUDGE: A = 68 or 69 for the touchdown, by the accelerometers: since the autopilot's last look they have counted
# gravity, and what stopped the craft. Outside the limits, 1.5 m/s down, 0.6 m/s forward or back and 3 degrees, alarm
# 3001 comes.
JUDGE   EXTEND
        QXCH    PROGQ
        CCS     ORBNAV
        TCF     CRASH       # an abort is no landing
        CA      TOUCHT
        EXTEND
        MP      GPULSES
        AD      LASTZ
        COM
        AD      SUMZ
        AD      PIPAX
        AD      LESS26
        EXTEND
        BZMF    +2
        TCF     CRASH
        CA      SUMX
        AD      PIPAZ
        EXTEND
        SU      LASTX
        TC      ABS
        AD      LESS10
        EXTEND
        BZMF    +2
        TCF     CRASH
        CA      CDUY
        EXTEND
        MSU     ZERO
        TC      ABS
        AD      LESS273
        EXTEND
        BZMF    +2
        TCF     CRASH
        CA      SIXTY8
        TCF     +4
CRASH   TC      ALARM
        OCT     3001
        CA      SIXTY9
        INDEX   PROGQ
        TC      0
GPULSES DEC     .2769       # gravity brings so many pulses in a hundredth of a second
LESS26  DEC     -26         # 1.5 m/s
LESS273 DEC     -273        # 3 degrees

# LPDANGLE: the angle in degrees from the craft's forward axis down to the site, at which the crew sees it in the window.
LPDANGLE EXTEND
        QXCH    PROGQ
        CS      XN          # its tangent from the horizon: altitude/way, or way/altitude
        TS      DIVISOR
        COM
        AD      ZN
        EXTEND
        BZMF    LPDLOW
        CA      DIVISOR
        ZL
        DXCH    MPAC
        CA      ZN
        TS      DIVISOR
        TC      DIVS
        TC      ARCTAN
        COM
        AD      RIGHTANG    # 90 degrees less that
        TCF     LPDTILT
LPDLOW  CA      ZN
        ZL
        DXCH    MPAC
        TC      DIVS
        TC      ARCTAN
LPDTILT TS      TEMA
        CA      CDUY
        EXTEND
        MSU     ZERO
        COM
        AD      TEMA
        EXTEND
        MP      DEGREES
        TS      LPDANG
        INDEX   PROGQ
        TC      0
DEGREES DEC     .010986
RIGHTANG DEC    8192

# RANGEJOB: the slant range to the site, for noun 68. It has a low priority: the crew has time.
RANGEJOB CA     XN
        TC      ABS
        TC      ATMOST
        DEC     15500
        EXTEND
        SQUARE
        DXCH    MPAC
        CA      ZN
        EXTEND
        SQUARE
        DAS     MPAC
        TC      SQRT
        TS      RANGE
        TC      ENDOFJOB
LESS12T5 DEC    -12500

# ---- bank 10: what has the units of an orbit: P63 far from the site, and an abort to an orbit, by P70 with the descent
# engine, by P71 with the ascent engine
        BANK    10
# DPTIMES: MPAC becomes MPAC times A, a fraction.
DPTIMES TS      TEMC
        CA      MPAC +1
        EXTEND
        MP      TEMC
        TS      TEMA
        CA      MPAC
        EXTEND
        MP      TEMC
        DXCH    MPAC
        CA      TEMA
        TS      L
        CA      ZERO
        DAS     MPAC
        TC      Q

# PULLS: A and NEWPULL = the gravity that is left at the state in the VAC area, GHERE = gravity. Both fall with the
# altitude h: gravity is g (1 - 2 h/R), and the speed makes up for v v/R (1 - h/R).
PULLS   EXTEND
        INDEX   PUSHLOC
        DCA     3
        DDOUBL
        DDOUBL              # in 1/8 m/s
        EXTEND
        SQUARE
        EXTEND
        MP      CENTRIF
        DOUBLE
        TS      TEMB
        INDEX   PUSHLOC
        CA      5
        EXTEND
        MP      PERMOON
        TS      TEMA        # h/R
        EXTEND
        MP      TEMB
        COM
        ADS     TEMB
        CA      TEMA
        EXTEND
        MP      GMOON
        DOUBLE
        COM
        AD      GMOON
        TS      GHERE
        EXTEND
        SU      TEMB
        TS      NEWPULL
        TC      Q

# ORBGAIN: MPAC = half of what A coarse pulses bring, less what MPAC has.
ORBGAIN EXTEND
        QXCH    LAWQ
        TS      TEMB
        EXTEND
        DCS     MPAC
        DXCH    ORBTEM
        CA      TEMB
        DOUBLE
        EXTEND
        MP      PULSE2
        DXCH    MPAC
        CA      BIT13
        TC      DPTIMES
        EXTEND
        DCA     ORBTEM
        DAS     MPAC
        TC      LAWQ

# ORBSTEP: SERVICER's step. What is less than a 256th of a second is left for the next one. Forward the pulses count, and the
# turning of the vertical takes VX VZ/R; up they count, less the gravity that is left in the middle of the step.
ORBSTEP CA      USEDT
        EXTEND
        MP      HUNDRTHS
        DDOUBL
        DDOUBL
        DXCH    MPAC
        CA      STEPREM
        TS      L
        CA      ZERO
        DAS     MPAC
        EXTEND
        DCA     MPAC
        TS      STEPDT
        LXCH    NEWREM
        INDEX   PUSHLOC
        CA      3
        DOUBLE
        DOUBLE
        TS      TEMB
        INDEX   PUSHLOC
        CA      7
        DOUBLE
        DOUBLE
        DOUBLE
        EXTEND
        MP      TEMB
        EXTEND
        MP      PERMOON
        EXTEND
        MP      STEPDT
        DXCH    MPAC
        CA      BIT9
        TC      DPTIMES
        CA      USEDX
        TC      ORBGAIN
        CA      PUSHLOC
        TS      BLK
        TC      STEP
        TC      PULLS
        EXTEND
        MP      HALF
        TS      TEMB
        CA      PULL
        EXTEND
        MP      HALF
        AD      TEMB
        EXTEND
        MP      STEPDT
        DXCH    MPAC
        CA      BIT8
        TC      DPTIMES
        CA      USEDZ
        TC      ORBGAIN
        CA      FOUR
        AD      PUSHLOC
        TS      BLK
        TC      STEP
# An engine that is on gives three pulses a second at least. If the descent engine does not in P70, its fuel is gone: P71.
# Three seconds with less in P63 or P71 are an alarm. An engine without thrust burns nothing.
        CCS     ENGCUT
        TCF     ORBOUT
        CA      USEDT
        AD      LESSHALF
        EXTEND
        BZMF    ORBBURN     # too short to tell
        CA      USEDX
        TC      ABS
        TS      TEMA
        CA      USEDZ
        TC      ABS
        AD      TEMA
        AD      LESS2
        EXTEND
        BZMF    NOPUSH
        CA      ZERO
        TS      NOTHRUST
        TCF     ORBBURN
NOPUSH  INCR    NOTHRUST
        CS      PROG63
        AD      MODREG
        EXTEND
        BZF     NOPUSH1
        CCS     STAGED
        TCF     NOPUSH1
        CA      PROG71
        TS      MODREG
        TCF     ORBOUT
NOPUSH1 CS      THREE
        AD      NOTHRUST
        EXTEND
        BZF     +2
        TCF     ORBBURN
        TC      ALARM
        OCT     3002
ORBBURN CCS     NOTHRUST
        TCF     ORBOUT
        CA      FCMD
        TC      BURN
# The state is put back, as SERVICER does it. ALT and VEL are dark: the radar does not count.
ORBOUT  INHINT
        CA      BIT9        # PROG stays as it is
        MASK    SIGNS +13
        TS      SIGNS +13
        CA      NINE
ORBOUT1 TS      TEMA
        AD      PUSHLOC
        TS      TEMB
        INDEX   TEMB
        CA      1
        INDEX   TEMA
        TS      XN
        CCS     TEMA
        TCF     ORBOUT1
        CS      USEDX
        ADS     DELVX
        CS      USEDZ
        ADS     DELVZ
        CS      USEDT
        ADS     DELT
        CA      NEWPULL
        TS      PULL
        CA      NEWREM
        TS      STEPREM
        CA      ONE
        TS      ORBNAV
        RELINT
        CS      PROG63
        AD      MODREG
        EXTEND
        BZF     BRAKE
        TCF     ORBLAW

# ABORTLAW: GUIDE jumps there in P70 and P71. At first the state in the VAC area comes into the units of an orbit, and the
# crew's display, whose noun may be gone, becomes the program's. The accelerometers' pulses are coarse from now on: those that
# have come since READACCS go into the speeds at once.
ABORTLAW CCS    ORBNAV
        TCF     ORBLAW
        CA      SIX
INTOORB TS      TEMB
        AD      PUSHLOC
        TS      BLK
        EXTEND
        INDEX   BLK
        DCA     1
        DXCH    MPAC
        CA      BIT10
        TC      DPTIMES
        DXCH    MPAC
        INDEX   BLK
        DXCH    1
        CA      TEMB
        EXTEND
        BZF     +3
        AD      LESS2
        TCF     INTOORB
        CA      ZERO
        TS      USEDX
        TS      USEDZ
        TS      USEDT
        TS      NEWREM
        TS      NOTHRUST
        TC      PULLS
        TC      BANKCALL
        CADR    FREEDISP
        INHINT
        CA      TWO
        EXTEND
        WOR     STAGING
        CA      ZERO
        XCH     DELVX
        AD      PIPAZ
        TC      LASTFINE
        INDEX   PUSHLOC
        DAS     3
        CA      ZERO
        TS      PIPAZ
        XCH     DELVZ
        AD      PIPAX
        TC      LASTFINE
        INDEX   PUSHLOC
        DAS     7
        CA      ZERO
        TS      PIPAX
        TCF     ORBOUT
# LASTFINE: A and L = what A fine pulses bring.
LASTFINE EXTEND
        QXCH    PROGQ
        TS      TEMC
        CA      ZERO
        ZL
        DXCH    MPAC
        CA      TEMC
        TC      ORBGAIN
        CA      BIT13
        TC      DPTIMES
        DXCH    MPAC
        INDEX   PROGQ
        TC      0

# The law. The stages first: P71 drops the descent stage, once, and with it that stage's mass.
ORBLAW  CCS     ENGCUT
        TCF     ORBEND
        CS      PROG71
        AD      MODREG
        EXTEND
        BZF     ASCENT
        CA      DESCMOST
        TCF     ORBENG
ASCENT  CCS     STAGED
        TCF     ASCENT1
        INHINT
        CA      ONE
        TS      STAGED
        EXTEND
        WOR     STAGING
        CA      ASCMASS
        TS      MASS
        CA      ZERO
        TS      MASS +1
        TS      NOTHRUST
        RELINT
ASCENT1 CA      ASCMOST
ORBENG  TS      FCMD
        EXTEND
        MP      BIT13
        DXCH    MPAC
        CA      MASS
        TS      DIVISOR
        TC      DIVS
        TS      ATOT
# The time to go is that in which the engine brings the speed that is lacking. Two seconds before, the engine's end goes into
# the Waitlist: 0.2 s early, for what the engine brings after that.
        EXTEND
        DCS     VX
        DXCH    MPAC
        CA      VORBIT
        ADS     MPAC
        EXTEND
        MP      HALF
        TS      VGODISP
        CA      HALF
        TC      DPTIMES
        CA      ATOT
        TS      DIVISOR
        TC      DIVS
        TS      ORBTGO
        TC      RATESHOW
        CA      ZN
        EXTEND
        MP      FOUR5THS
        DDOUBL
        DDOUBL
        TS      ALTKM
        TCF     +3
        CA      POSMAX      # above 163 km
        TS      ALTKM
        CA      ORBTGO
        AD      LESSCUT
        EXTEND
        BZMF    +2
        TCF     ORBUP
        CA      CUTBIT
        MASK    FLAGWRD1
        EXTEND
        BZF     +2
        TCF     ORBUP
        TC      UPFLAG
        ADRES   CUTBIT
        CA      ORBTGO
        TC      ATLEAST
        DEC     0
        EXTEND
        MP      HUNDRED
        CA      L
        EXTEND
        MP      BIT11
        AD      TAILOFF
        TS      TEMA
        CS      PIPTIME     # the state is that of PIPTIME
        AD      TIME1
        EXTEND
        BZMF    +2
        TCF     +3
        AD      POSMAX      # TIME1 began anew
        AD      ONE
        COM
        AD      TEMA
        TC      ATLEAST
        DEC     2
        INHINT
        TC      WAITLIST
        2CADR   CUTTASK
        RELINT
# Up: upright, until the craft climbs by 15 m/s. Then to the altitude of the orbit, at rest there; in the last ten seconds
# without a change of the rate.
ORBUP   CS      VZ
        AD      RISERATE
        EXTEND
        BZMF    ORBTURN
        CA      ZN
        AD      LESSRISE
        EXTEND
        BZMF    +2
        TCF     ORBTURN
        CA      ZERO
        TCF     ORBTILT
ORBTURN CA      ORBTGO
        AD      LESSHOLD
        EXTEND
        BZMF    ORBHOLD
        EXTEND
        DCA     HORBIT
        DXCH    MPAC
        CA      ZERO
        TC      CLIMB
        TS      AZ
        CA      ORBTGO
        TC      NORATE
        AD      FALLRATE
        EXTEND
        SU      AZ
        TC      ATMOST
        DEC     0
        AD      AZ
        TCF     +5
ORBHOLD CA      TENSECS
        TC      NORATE
        TC      LIMIT
        DEC     2560
        TC      ENGLEFT     # forward is what the engine has left
        TC      TILTFOR
ORBTILT TS      THETAD
        INHINT
        CCS     AVEGFLG     # the ground may have come meanwhile
        TCF     +2
        TC      ENDOFJOB
        CA      FCMD
        EXTEND
        WRITE   THROTTLE
        TC      ENDOFJOB

# NORATE: A = -2 VZ by the time in A, 4.5 m/s/s at most. With 2 m/s/s more it is the most that an abort wants upward: then it can
# still end without a rate by 2 m/s/s down, though short of the altitude. In the last ten seconds it is all.
NORATE  TS      DIVISOR
        EXTEND
        QXCH    LAWQ
        EXTEND
        DCS     VZ
        DXCH    MPAC
        TC      DIVS
        TC      LIMIT
        DEC     4608
        TC      LAWQ
# CLIMB: A = the acceleration up that brings the craft in the time to go T to the altitude in MPAC, at a rate there that is
# minus a half of A: 6/T (way/T) - 4 VZ/T + A/T, 2.5 m/s/s at most.
CLIMB   TS      ORBTEM
        EXTEND
        QXCH    LAWQ
        EXTEND
        DCS     ZN
        DAS     MPAC
        CA      SIXBY16
        TC      DPTIMES
        CA      ORBTGO
        TS      DIVISOR
        TC      DIVS
        TS      TEMB
        EXTEND
        DCS     VZ
        DDOUBL
        DDOUBL
        AD      TEMB
        AD      ORBTEM
        EXTEND
        MP      HALF
        DXCH    MPAC
        TC      DIVS
        TC      LIMIT
        DEC     2560        # 2.5 m/s/s
        TC      LAWQ
# ENGLEFT: AX = what the engine has left of ATOT for the way forward if it brings A upward, and the gravity that is left:
# GZ, 19/20 of ATOT at most.
ENGLEFT TS      AZ
        EXTEND
        QXCH    LAWQ
        CA      PULL
        EXTEND
        MP      BIT12
        AD      AZ
        TS      GZ
        CA      ATOT
        EXTEND
        MP      MOSTUP
        TS      TEMA
        EXTEND
        SU      GZ
        EXTEND
        BZMF    +2
        TCF     +3
        CA      TEMA
        TS      GZ
        CA      GZ
        EXTEND
        SQUARE
        EXTEND
        DCOM
        DXCH    MPAC
        CA      ATOT
        EXTEND
        SQUARE
        DAS     MPAC
        TC      SQRT
        TS      AX
        TC      LAWQ
# RATESHOW: the altitude rate for the display.
RATESHOW EXTEND
        DCA     VZ
        DDOUBL
        DDOUBL
        DDOUBL
        EXTEND
        MP      FIVE8THS
        TS      ALTRATE
        TC      Q

# CUTTASK: the engine goes off in orbit.
CUTTASK CCS     AVEGFLG
        TCF     +2
        TC      TASKOVER
        CS      BIT13
        EXTEND
        WAND    LAMPS
        CA      ZERO
        TS      FCMD
        EXTEND
        WRITE   THROTTLE
        CA      ONE
        TS      ENGCUT
        TC      TASKOVER
# ORBEND: three seconds later the orbit is computed from the state, and guidance ends. Upward from the perilune the
# eccentricity is what the speed has over that of a circle, and across it VZ/VX.
ORBEND  CS      FOUR
        AD      ENGCUT
        EXTEND
        BZF     +3
        INCR    ENGCUT
        TC      ENDOFJOB
        CS      PULL
        ZL
        DXCH    MPAC
        CA      GHERE
        TS      DIVISOR
        TC      DIVS
        TS      ECCX
        EXTEND
        DCA     VZ
        DXCH    MPAC
        CA      VX
        TS      DIVISOR
        TC      DIVS
        EXTEND
        SQUARE
        DXCH    MPAC
        CA      ECCX
        EXTEND
        SQUARE
        DAS     MPAC
        TC      SQRT
        TS      ECC
        CA      ZN
        EXTEND
        MP      PER200M
        AD      MOON200M
        TS      RHERE
        CA      ECC
        AD      ECCX
        ZL
        DXCH    MPAC
        CS      ECC
        AD      POSMAX
        TS      DIVISOR
        TC      DIVS        # (x + e)/(1 - e)
        TC      FROMHERE
        TS      APOLUNE
        CS      ECC
        AD      ECCX
        EXTEND
        MP      HALF
        DXCH    MPAC
        CA      ECC
        EXTEND
        MP      HALF
        AD      HALF
        TS      DIVISOR
        TC      DIVS        # (x - e)/(1 + e)
        TC      FROMHERE
        TS      PERILUNE
        CA      VX
        EXTEND
        MP      HALF
        TS      SPEEDMS
        INHINT
        TC      ENGOFF
        CA      ORBNOUN
        TS      PDNOUN
        TC      ENDOFJOB
# FROMHERE: A = the altitude in 0.1 km that is higher than this one by A times the way to the Moon's middle.
FROMHERE EXTEND
        MP      RHERE
        DDOUBL
        TS      TEMA
        CA      ZN
        EXTEND
        MP      PER100M
        AD      TEMA
        TC      Q
# P63 far from the site, for a load in the units of an orbit. BRKBEGIN, before PRO: the gravity that is left, the display,
# and coarse pulses. Called by BANKCALL.
BRKBEGIN EXTEND
        QXCH    PROGQ
        CCS     ORBNAV
        TCF     +2
        TCF     BRKBACK     # a load in the units of a landing
        CA      THESTATE
        TS      PUSHLOC     # the state itself in the place of a VAC area
        TC      PULLS
        TS      PULL
        CA      ZERO
        TS      PUSHLOC
        TS      STEPREM
        TS      ORBTGO
        TC      BRKSHOW
        CA      TWO
        EXTEND
        WOR     STAGING
BRKBACK INDEX   PROGQ
        TC      0
# BRKSHOW: the display's time to go, place, speed, altitude rate and altitude.
BRKSHOW EXTEND
        QXCH    LAWQ
        CA      ORBTGO
        EXTEND
        MP      FIVE8THS
        TS      BRKTGO
        CA      XN
        EXTEND
        MP      PER100M
        TS      BRKWAY
        CA      VX
        EXTEND
        MP      HALF
        TS      SPEEDMS
        TC      RATESHOW
        CA      FOUR
        TC      TIMES32     # in m
        TS      BRKALT
        TC      LAWQ
        CA      POSMAX      # above 16,383 m
        TS      BRKALT
        TC      LAWQ
# TIMES32: A and L = the state's words from XN + A on, times 32, with an overflow if they have no place.
TIMES32 EXTEND
        INDEX   A
        DCA     XN
        DDOUBL
        DDOUBL
        DDOUBL
        DDOUBL
        DDOUBL
        TC      Q

# BRAKE: the law, to a point 12.8 km before the site, 3500 m up, 190 m/s forward and 45 m/s down. The time to go is that at
# the mean of both speeds. Forward the craft brakes evenly, as far as the engine has something left for that. Eight seconds
# before that point the state comes into the units of a landing.
BRAKE   CA      DESCMOST
        EXTEND
        MP      BIT13
        DXCH    MPAC
        CA      MASS
        TS      DIVISOR
        TC      DIVS
        TS      ATOT
        EXTEND
        DCS     XN
        DXCH    MPAC
        CA      LESSWAY
        ADS     MPAC
        CA      BIT12
        TC      DPTIMES
        CA      VX
        AD      VBRAKE
        TC      ATLEAST
        DEC     64
        TS      DIVISOR
        TC      DIVS
        TS      ORBTGO
        TC      BRKSHOW
        CA      ORBTGO
        AD      LESS8SEC
        EXTEND
        BZMF    BRKEND
        EXTEND
        DCA     HBRAKE
        DXCH    MPAC
        CA      SINK2
        TC      CLIMB
        TC      ENGLEFT
        CS      VBRAKE
        ZL
        DXCH    MPAC
        EXTEND
        DCA     VX
        DAS     MPAC
        CA      HALF
        TC      DPTIMES
        CA      ORBTGO
        TS      DIVISOR
        TC      DIVS
        TC      ATLEAST
        DEC     0
        EXTEND
        SU      AX
        EXTEND
        BZMF    +2
        TCF     +2          # more than the engine has left
        ADS     AX
        CA      GZ
        EXTEND
        SQUARE
        DXCH    MPAC
        CA      PUSHADR
        TS      LAWQ
        TCF     THRUST3
BRKPUSH TS      FCMD
        TC      TILTFOR
        COM                 # backward
        TCF     ORBTILT
# BRKEND: from here on the units are those of a landing, if the state has room there. Else this site cannot be reached, and
# the program is P70. The pulses that have come since READACCS are coarse; they go into the speeds at once.
BRKEND  CA      VX
        TC      ABS
        AD      LESS500
        EXTEND
        BZMF    +2
        TCF     BRKFAR
        CS      XN
        AD      LESS500
        EXTEND
        BZMF    +2
        TCF     BRKFAR
        CA      ZN
        AD      LESS500
        EXTEND
        BZMF    BRKNEAR
BRKFAR  TC      ALARM
        OCT     3003
        TC      BANKCALL    # the nouns of P63 are gone
        CADR    FREEDISP
        CA      PROG70
        TS      MODREG
        CA      ABRTNOUN
        TS      PDNOUN
        TCF     ORBLAW
BRKNEAR INHINT
        CA      ZERO
        XCH     PIPAZ
        ADS     DELVX
        CA      ZERO
        XCH     PIPAX
        ADS     DELVZ
        CS      TWO
        EXTEND
        WAND    STAGING     # fine pulses
        CA      ZERO
        XCH     DELVX
        DOUBLE
        DOUBLE
        DOUBLE
        TC      LASTFINE
        DAS     VX
        CA      ZERO
        XCH     DELVZ
        DOUBLE
        DOUBLE
        DOUBLE
        TC      LASTFINE
        DAS     VZ
        CA      SIX
BRKNEAR1 TS     TEMB
        TC      TIMES32
        INDEX   TEMB
        DXCH    XN
        CA      TEMB
        EXTEND
        BZF     +3
        AD      LESS2
        TCF     BRKNEAR1
        CA      ZERO
        TS      ORBNAV
        TS      NOTHRUST
        TS      NORADAR
        TS      RADGOT
        RELINT
        TC      ENDOFJOB
THESTATE ADRES  XN -1
PUSHADR ADRES   BRKPUSH
LESSWAY DEC     -400        # 12.8 km
VBRAKE  DEC     380         # 190 m/s
HBRAKE  DEC     109         # 3500 m
        DEC     6144
SINK2   DEC     180         # twice 45 m/s
LESS8SEC DEC    -128
LESS500 DEC     -500        # 250 m/s, or 16 km
PROG63  DEC     63
PROG70  DEC     70
ABRTNOUN DEC    94
CENTRIF DEC     .603532     # 256/R in 2 to the -13, by 2
PERMOON DEC     .301766     # 32/R in 2 to the -14
GMOON   DEC     13271       # 1.62 m/s/s
PULSE2  DEC     .936
HUNDRTHS DEC    .64         # with four of these, 256ths of a second
LESSHALF DEC    -50         # half a second
PROG71  DEC     71
ORBNOUN DEC     44
DESCMOST DEC    10572       # 42.3 kN
ASCMOST DEC     3900        # 15.6 kN
ASCMASS DEC     4700
VORBIT  DEC     3368        # 1684 m/s
HORBIT  DEC     562         # 18 km
        DEC     8192
FIVE8THS DEC    .625
FOUR5THS DEC    .8
LESSCUT DEC     -32         # 2 s
HUNDRED DEC     100
TAILOFF DEC     -20
RISERATE DEC    30          # 15 m/s
LESSRISE DEC    -150        # 4.8 km
LESSHOLD DEC    -160        # 10 s
TENSECS DEC     160
FALLRATE DEC    2048        # 2 m/s/s
MOSTUP  DEC     .95
PER200M DEC     .16
PER100M DEC     .32
MOON200M DEC    8687

# ---- bank 40, behind the superbank: the way ahead
        BANK    40
# PREDICT goes on from the state in the VAC area, and flies the rest of P64 by the same law, in steps of a 70th of the
# time to go, for the mass at low gate; then it hovers for as long as the way down takes, for the mass on the ground. It
# gives way after each step; what it needs then is in the VAC area, too: the steps left in word 13, the step of time in
# 14, the time to go in 15.
PREDICT CA      TGO
        INDEX   PUSHLOC
        TS      15
        EXTEND
        MP      STEPPART
        INDEX   PUSHLOC
        TS      14
        CA      STEPS
PRSTEP  INDEX   PUSHLOC
        TS      13
        INDEX   PUSHLOC
        CA      14
        TS      STEPDT
        INDEX   PUSHLOC
        CA      15
        TS      LAWT
        CA      FOUR
PRAXIS  TC      LAW
        EXTEND
        MP      STEPDT
        DDOUBL
        DXCH    MPAC
        TC      STEP
        CA      AXIS
        EXTEND
        BZF     +3
        CA      ZERO        # forward as well
        TCF     PRAXIS
        TC      THRUST
        TC      BURN
        CS      STEPDT
        EXTEND
        MP      BIT13
        INDEX   PUSHLOC
        ADS     15
        CCS     NEWJOB
        TC      CHANG1
        INDEX   PUSHLOC
        CCS     13
        TCF     PRSTEP
        INDEX   PUSHLOC
        CA      11
        TS      PMASS
        CA      LANDSTPS
PRLAND  INDEX   PUSHLOC
        TS      13
        CA      LANDDT
        TS      STEPDT
        CA      ZERO
        TS      AX
        TS      AZ
        TC      THRUST
        TC      BURN
        CCS     NEWJOB
        TC      CHANG1
        INDEX   PUSHLOC
        CCS     13
        TCF     PRLAND
        INDEX   PUSHLOC
        CA      11
        TS      TMASS
        TC      ENDOFJOB
STEPS   DEC     65          # up to a seventeenth of the time to go, where the law wants too much
STEPPART DEC    .057143     # a 70th in units of 1/256 s
LANDSTPS DEC    18          # nineteen steps
LANDDT  DEC     512         # of 2 s
