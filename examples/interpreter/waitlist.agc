# WAITLIST: tasks, the services of the interrupts, and the fresh start. In the manner of examples/descent.
        BANK    6
# TIME3 carries when the first task is due; LST1 has the time from each to the next one. WAIT1: the task in NEWLOC in WAITDT hundredths.
WAIT1   CS      TIME3
        AD      BIT14
        EXTEND
        BZMF    +3
        CS      TIME3       # it has carried: the first task is due already
        TCF     +2
        AD      BIT14       # 16384 - TIME3
        EXTEND
        SU      WAITDT
        EXTEND
        BZMF    WAIT2
        TS      RUPTTEM     # it comes before the first
        ADS     TIME3
        CA      ZERO
        TCF     INSERT
WAIT2   TS      WAITREM     # so much after the first, minus
        CA      ZERO
WAIT3   TS      WAITI
        INDEX   WAITI
        CA      LST1
        AD      WAITREM
        EXTEND
        BZMF    WAIT4       # not before the next one
        TS      RUPTTEM
        CS      WAITREM
        INDEX   WAITI
        TS      LST1
        CA      WAITI
        AD      ONE
        TCF     INSERT
WAIT4   TS      WAITREM
        INCR    WAITI
        CS      BIT4
        AD      WAITI
        EXTEND
        BZF     BAILOUT     # it comes after nine others
        TCF     WAIT3 +1
INSERT  TS      WAITJ       # RUPTTEM into LST1 there, the task into LST2, and all behind them one place on
INSERT1 CA      WAITJ
        AD      WAITJ
        TS      WAITI
        DXCH    NEWLOC
        INDEX   WAITI
        DXCH    LST2
        DXCH    NEWLOC
        CS      BIT4
        AD      WAITJ
        EXTEND
        BZF     WAITOUT     # the tenth comes out: it must be no task
        CA      RUPTTEM
        INDEX   WAITJ
        XCH     LST1
        TS      RUPTTEM
        INCR    WAITJ
        TCF     INSERT1
WAITOUT CS      NEWLOC
        AD      DUMMY
        EXTEND
        BZF     +2
        TCF     BAILOUT
        TC      Q

# FIXDELAY: the task goes on behind the word after the call, in so many hundredths as that says.
FIXDELAY INDEX  Q
        CA      0
        TS      WAITDT
        CA      RUPTBB
        TS      NEWLOC +1
        CA      Q
        AD      ONE
        TS      NEWLOC
        TC      WAIT1
        TCF     TASKOVER
T3RUPT  TS      BBRUPT
        EXTEND
        QXCH    QRUPT
        CS      TIME3       # was it requested before a fresh start? Then nothing is due
        AD      BIT14
        EXTEND
        BZMF    RUPTEND
T3NEXT  CS      LST1        # the task after this one is due in LST1: TIME3 + 16384 - LST1
        AD      POSMAX
        AD      ONE
        ADS     TIME3
        TS      T3MORE      # a carry, which is 1 in A: it is due too
        CA      ZERO
        TS      T3MORE
        CA      DT80S
        XCH     LST1 +7
        XCH     LST1 +6
        XCH     LST1 +5
        XCH     LST1 +4
        XCH     LST1 +3
        XCH     LST1 +2
        XCH     LST1 +1
        XCH     LST1
        EXTEND
        DCA     DUMMY
        DXCH    LST2 +20
        DXCH    LST2 +16
        DXCH    LST2 +14
        DXCH    LST2 +12
        DXCH    LST2 +10
        DXCH    LST2 +6
        DXCH    LST2 +4
        DXCH    LST2 +2
        DXCH    LST2
        DXCH    Z
TASKOVER CCS    T3MORE
        TCF     T3NEXT
        TCF     RUPTEND
DUMMY   2CADR   TASKOVER    # a place in the Waitlist without a task

# Two tasks. MONTASK, twice a second: the display. IGNITE: it is time to burn.
MONTASK CA      PRIO30
        TC      NOVAC
        2CADR   DISPJOB
        TC      FIXDELAY
        DEC     50
        TCF     MONTASK
IGNITE  CS      TWO         # (verb 37 may have called it off)
        AD      BURNSET
        EXTEND
        BZF     +2
        TCF     TASKOVER
        CA      TWO
        TC      ASK
        TCF     TASKOVER

# T4RUPT, each 20 ms: PRO, and one row of the display.
T4RUPT  TS      BBRUPT
        EXTEND
        QXCH    QRUPT
        CA      T4DT
        TS      TIME4
        CA      BIT14
        EXTEND
        RAND    CHAN32
        XCH     PROUP
        EXTEND
        SU      PROUP
        EXTEND
        BZMF    T4ROW       # it is not down, or it was before
        CA      PRIO30
        TC      NOVAC
        2CADR   PROKEY
T4ROW   CCS     DSROW
        TCF     +2
        CA      ELEVEN
        TS      DSROW
        DOUBLE              # the left digit by 32, the right one, and a sign
        TS      RUPTTEM
        INDEX   RUPTTEM
        CA      DIGITS +1
        EXTEND
        MP      BIT6
        CA      L
        INDEX   RUPTTEM
        AD      DIGITS
        INDEX   DSROW
        AD      SIGNS
        INDEX   DSROW
        AD      ROWS
        TS      RUPTTEM
        INDEX   DSROW
        XCH     DSPTAB
        EXTEND
        SU      RUPTTEM
        EXTEND
        BZF     RUPTEND     # the relays have it already
        CA      RUPTTEM
        EXTEND
        WRITE   RELAYS
        TCF     RUPTEND
T4DT    DEC     16382       # two steps to the carry
ELEVEN  DEC     11
BIT6    OCT     40
ROWS    2OCT    0400010000  # the rows' numbers
        2OCT    1400020000
        2OCT    2400030000
        2OCT    3400040000
        2OCT    4400050000
        2OCT    5400060000

# KEYRUPT1: a job for the key. Its code is in the job's MPAC.
KEYRUPT1 TS     BBRUPT
        EXTEND
        QXCH    QRUPT
        CA      PRIO30
        TC      NOVAC
        2CADR   CHARIN
        CA      LOW5
        EXTEND
        RAND    KEYIN
        INDEX   LOCCTR
        TS      MPAC
        TCF     RUPTEND
LOW5    OCT     37

# POWERUP, and verb 36: all is given up but the state, the clock and the nouns. Without a state the first one comes.
POWERUP CA      ZERO
        TCF     FRESH
FRESHALM CA     BIT9        # PROG lights
FRESH   TS      NEWPRIO
        CCS     KEPT        # ORBJOB was about to change the state: the one before comes back
        TCF     +2
        TCF     FRESH0
        CA      THIRTEEN
FRESHK  TS      FRSI
        INDEX   FRSI
        CA      RKEPT
        INDEX   FRSI
        TS      RVEC
        CCS     FRSI
        TCF     FRESHK
        TS      KEPT
FRESH0  CA      CLEARN
FRESH1  TS      FRSI
        CA      ZERO
        INDEX   FRSI
        TS      T3MORE
        CCS     FRSI
        TCF     FRESH1
        TS      NEWJOB
        CA      NEWPRIO
        TS      SIGNS +13
        CA      SEVEN       # no task
FRESH2  TS      FRSI
        CA      DT80S
        INDEX   FRSI
        TS      LST1
        CCS     FRSI
        TCF     FRESH2
        CA      BIT5
FRESH3  TS      FRSI
        EXTEND
        DCA     DUMMY
        INDEX   FRSI
        DXCH    LST2
        CS      TWO
        AD      FRSI
        EXTEND
        BZMF    +2
        TCF     FRESH3
        EXTEND
        DCA     DUMMY
        DXCH    LST2
        CS      ZERO        # no job
        TS      PRIORITY
        CA      FIRSTSET
        TS      LOCCTR
FRESH4  CS      ZERO
        INDEX   LOCCTR
        TS      PRIORITY
        CA      TWELVE
        ADS     LOCCTR
        AD      LESSLAST
        EXTEND
        BZMF    FRESH4
        CS      ALLLAMPS
        EXTEND
        WAND    LAMPS
        CA      TIME3ST
        TS      TIME3
        CA      T4DT
        TS      TIME4
        CA      SEVEN
        TC      WAITLIST
        2CADR   MONTASK
        CCS     STATEOK
        TCF     ENDOFJOB
        CA      FOUR
        TC      ASK
        TCF     ENDOFJOB
CLEARN  DEC     55          # from T3MORE to CLEARED
SEVEN   DEC     7
THIRTEEN DEC    13
DT80S   DEC     8000
TIME3ST DEC     8384        # 80 seconds to the carry
ALLLAMPS OCT    162         # COMP ACTY, KEY REL, flash, OPR ERR
