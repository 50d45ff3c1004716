# FLIGHT: channels and cells of the orbit's program, besides those of the interpreter. The cells of banks 0 to 2 are always in reach; EB has
# bank 3 in all jobs and tasks. DP is a number of two words. Times are in hundredths of a second, [28]: a DP whole number.
RELAYS  EQUALS  10          # the display's relay words
LAMPS   EQUALS  11          # bit 2 COMP ACTY, 5 KEY REL, 6 flash, 7 OPR ERR
KEYIN   EQUALS  15          # the code of the key
CHAN32  EQUALS  32          # bit 14 is 0 while PRO is down

        EBANK=  RVEC
        SETLOC  0061
NEWLOC  ERASE   +1          # where a new job or task begins, and its banks
NEWPRIO ERASE               # the job's priority
LOCCTR  ERASE               # the offset of the core set in hand
SETPTR  ERASE               # the offset of another one
BESTPRI ERASE               # the highest priority found so far
NEWJOB  ERASE               # cell 67: the offset of the core set that is to run next; +0: the job in hand goes on
WAITDT  ERASE               # a new task: in how many hundredths of a second
WAITREM ERASE               # what is left of that at the task in hand
WAITI   ERASE
WAITJ   ERASE
RUPTQ   ERASE               # where NOVAC and WAITLIST go back to,
WAITBB  ERASE               # and to which banks
RUPTTEM ERASE

# MPAC, MODE, LOC, BANKSET and PUSHLOC, cells 154 to 166, are core set 0, the running job's, with the next cell:
        SETLOC  0167
PRIORITY ERASE              # -0: free; else the priority, bits 14 to 10

        SETLOC  0400
CORESETS ERASE  +73         # the core sets of the jobs that wait, five of 12 words
LST1    ERASE   +7          # from task to task, in hundredths of a second
LST2    ERASE   +21         # nine tasks: address and banks
DSPTAB  ERASE   +13         # the relay words as they were written last
DSROW   ERASE               # T4RUPT: the row in hand, less one
PROUP   ERASE               # +0 while PRO is down
STATEOK ERASE               # 1 once there is a state
# A fresh start clears what follows:
T3MORE  ERASE               # 1 while the next task is due as well
INMODE  ERASE               # 1: a verb is keyed, 2: a noun, -3: a number
MONNOUN ERASE               # the noun that the crew's verb 16 or 82 keeps up to date, or +0
DSPLOCK ERASE               # 1 while the crew has the display
PROWAIT ERASE               # what PRO begins: an address in bank 07, or +0
MODREG  ERASE               # the program, 0 or 30
PDNOUN  ERASE               # the noun that it shows, or +0,
PDVERB  ERASE               # and by which verb
V37ON   ERASE               # 1 while verb 37 waits for its program
BURNSET ERASE               # 1: a burn is awaited, 2: its task is in the Waitlist
WANTS   ERASE   +4          # what ORBJOB is to do, a cell each that is not +0: 0 orbit, 1 plan, 2 burn, 3 load, 4 the first state
ORBON   ERASE               # 1 while ORBJOB is there
VERBREG ERASE               # the verb,
NOUNREG ERASE               # the noun,
INVAL   ERASE   +1          # and the number that is keyed, DP
DIGITS  ERASE   +27         # the display's digit codes, from R3's last up to PROG's first,
SIGNS   ERASE   +13         # and what else its rows have: bit 11 a sign, or lamps
CLEARED EQUALS  SIGNS +13

        SETLOC  1000
INSIGN  ERASE               # the keyboard: +1 or -1; 0: no sign was keyed
TOCOME  ERASE               # how many digits are still to come,
LASTPOS ERASE               # and where the last one goes
DIGIT   ERASE
FIRSTREG ERASE              # the first register of a load, 0 to 2,
LASTREG ERASE               # the last one,
REGNO   ERASE               # and the one in hand
LOADBUF ERASE   +5          # what was keyed for the registers, DP
DSPPOS  ERASE               # where the next digit goes
DSPBITS ERASE
NNPTR   ERASE               # the noun's lines in NOUNTAB
SHOWADR ERASE
SHOWQ   ERASE
SHOWQ2  ERASE
DSIGN   ERASE               # the sign of a number, whose magnitude is in MPAC
KIND    ERASE
KIND2   ERASE               # 1 if a noun is a time
FRSI    ERASE               # a fresh start's count
LIVEQ   ERASE
ASKNO   ERASE               # ASK: the number of the cell in WANTS,
ASKQ    ERASE               # and where to go back to
WANTNO  ERASE
DIVISOR ERASE
CLOCKED ERASE   +5          # a time's hours, minutes, hundredths of a second, DP

        SETLOC  1400        # E3. The state:
RVEC    ERASE   +5          # the place, [25] m,
VVEC    ERASE   +5          # the speed, [12] m/s,
TSTATE  ERASE   +1          # and its time
PLACEN  ERASE   +5          # nouns, DP whole numbers: the place in 0.1 km,
SPEEDN  ERASE   +5          # the speed in 0.1 m/s,
TIMEN   ERASE   +1          # the time of both,
BURNN   ERASE   +5          # a burn forward, to the right and down, in 0.1 m/s,
TIG     ERASE   +1          # and its time,
TBURN   ERASE   +1          # which stays once the burn's task is in the Waitlist
HAPO    ERASE   +1          # the orbit: apolune and perilune in 0.1 nautical miles,
HPERI   ERASE   +1
TPERI   ERASE   +1          # the time of a perilune,
TOPERI  ERASE   +1          # how long it is until then,
PERCS   ERASE   +1          # and the period
HAPO2   ERASE   +1          # the orbit after the burn,
HPERI2  ERASE   +1
DVMAG   ERASE   +1          # and the burn's magnitude in 0.1 m/s
FROMTIG ERASE   +1          # the time from ignition on, minus before it,
VGO     ERASE   +1          # the speed to be gained, 0.1 m/s,
VDONE   ERASE   +1          # and what is gained
NOTHING ERASE   +1          # +0: an empty register
BURNOK  ERASE               # 1 if the planned orbit is one that the program can compute
TARGET  ERASE   +1          # ADVANCE: the time to which the state goes
ADVQ    ERASE               # where ADVANCE goes back to,
CHECKQ  ERASE               # CHECK
BURNQ   ERASE               # and THEBURN
CSPERIOD ERASE  +1          # the period in hundredths of a second
RKEPT   ERASE   +5          # a state that is kept meanwhile
VKEPT   ERASE   +5
TKEPT   ERASE   +1
KEPT    ERASE               # 1 while the state is not that of the craft
DT      ERASE   +1          # KEPLER's step of time, [19] s
BURNV   ERASE   +5          # the change of speed, [12] m/s
APO     ERASE   +1          # apolune and perilune above the surface, [26] m
PERI    ERASE   +1
TFP     ERASE   +1          # the time to perilune, [19] s
RMAG    ERASE   +1          # the distance from the centre, [25] m
ECOS    ERASE   +1          # e times the cosine of the eccentric anomaly, [0]
ESIN    ERASE   +1          # e times its sine
ECC     ERASE   +1          # e itself
SMA     ERASE   +1          # half the major axis, a, [25] m
SQAMU   ERASE   +1          # the root of a / mu, [-9]
PERIOD  ERASE   +1          # [19] s
COSHALF ERASE   +1          # half the cosine of the eccentric anomaly,
SINHALF ERASE   +1          # and of its sine
EANOM   ERASE   +1          # the eccentric anomaly, in revolutions,
MANOM   ERASE   +1          # and the mean one
QROOT   ERASE   +1          # the root of 1 - e e, [1]
PVEC    ERASE   +5          # half a unit vector to the perilune,
QVEC    ERASE   +5          # and half of one across it, in the orbit's plane
RNEW    ERASE   +5          # the state after the step
VNEW    ERASE   +5
