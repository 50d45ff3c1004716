# EXECUTIVE: jobs. Each has a core set, the running one set 0, whose cells are the interpreter's MPAC, MODE, LOC, BANKSET and PUSHLOC, and
# the priority. One job at a time may use the interpreter, because there is one work area: ORBJOB. In the manner of examples/descent.
        BANK    3
# NOVAC: a new job. A has its priority, the two words after the call its address and banks. From a job it wants INHINT before.
NOVAC   TS      NEWPRIO
        EXTEND
        INDEX   Q
        DCA     0
        DXCH    NEWLOC
        EXTEND
        QXCH    RUPTQ
        CA      FIRSTSET
NOVAC2  TS      LOCCTR
        INDEX   LOCCTR
        CCS     PRIORITY
        TCF     NEXTSET
        TCF     NEXTSET
        TCF     NEXTSET
        CA      NEWPRIO     # -0: this set is free
        INDEX   LOCCTR
        TS      PRIORITY
        DXCH    NEWLOC
        INDEX   LOCCTR
        DXCH    LOC
        CCS     NEWJOB      # is it better than the job that runs, or is to run next?
        TCF     +2
        TCF     +2
        AD      ONE
        INDEX   A
        CA      PRIORITY
        EXTEND
        BZMF    BETTER      # nobody runs
        EXTEND
        SU      NEWPRIO
        EXTEND
        BZMF    +2
        TCF     NOVACOUT
        EXTEND
        BZF     NOVACOUT    # of two that are alike the first one runs
BETTER  CA      LOCCTR
        TS      NEWJOB
NOVACOUT INDEX  RUPTQ
        TC      2
NEXTSET CA      TWELVE
        ADS     LOCCTR
        AD      LESSLAST
        EXTEND
        BZMF    NOVAC2 +1
BAILOUT INHINT              # no place for a job or task: a fresh start, and PROG lights. RESUME ends a service where there is one
        CA      GOORDER
        TS      BRUPT
        RESUME
GOORDER TCF     NOROOM
NOROOM  CA      RUPTBB
        TS      BBANK
        TCF     FRESHALM

# LETTHEM: ORBJOB gives way to a better job, by RTB LETTHEM as the last operation of a line. LOC, the address of the operand, is
# complemented meanwhile: so CHANGE sees that the job goes on in the interpretive language. Jobs in basic code do not give way.
LETTHEM CCS     NEWJOB
        TCF     +2
        TC      Q
        INHINT
        CS      LOC
        TS      LOC
# CHANGE: exchanges set 0 with that of NEWJOB, two words at a time.
CHANGE  CA      ZERO
        XCH     NEWJOB
        TS      SETPTR
        CA      ZERO
CHANGE1 TS      LOCCTR
        INDEX   LOCCTR
        DXCH    MPAC
        INDEX   SETPTR
        DXCH    MPAC
        INDEX   LOCCTR
        DXCH    MPAC
        CA      TWO
        ADS     SETPTR
        CA      TWO
        ADS     LOCCTR
        AD      LESS10
        EXTEND
        BZMF    CHANGE1 +1
        CCS     LOC
        TCF     BEGINS
        TCF     BEGINS
        CS      LOC         # it goes on in the interpretive language
        TS      LOC
        CA      ZERO
        TS      EDOP
        RELINT
        TCF     NEXTOP
BEGINS  EXTEND
        DCA     LOC
        RELINT
        DXCH    Z

# ENDOFJOB: the job is done. The best of those that are ready runs.
ENDOFJOB INHINT
        CS      ZERO
        TS      PRIORITY
        CA      ZERO
        TS      BESTPRI
        TS      NEWJOB
        CA      FIRSTSET
SCAN    TS      LOCCTR
        INDEX   LOCCTR
        CA      PRIORITY
        EXTEND
        BZMF    SCANNEXT
        EXTEND
        SU      BESTPRI
        EXTEND
        BZMF    SCANNEXT
        ADS     BESTPRI
        CA      LOCCTR
        TS      NEWJOB
SCANNEXT CA     TWELVE
        ADS     LOCCTR
        AD      LESSLAST
        EXTEND
        BZMF    SCAN +1
        CCS     BESTPRI
        TCF     CHANGE
        CS      TWO         # nobody is ready: COMP ACTY goes out,
        EXTEND
        WAND    LAMPS
        RELINT
IDLE    CCS     NEWJOB      # and the machine waits for NEWJOB
        TCF     +2
        TCF     IDLE
        INHINT
        CA      TWO
        EXTEND
        WOR     LAMPS
        TCF     CHANGE

# ASK: ORBJOB is to do what A says, 0 to 4: the cell in WANTS. It wants INHINT before.
ASK     TS      ASKNO
        CA      ONE
        INDEX   ASKNO
        TS      WANTS
        EXTEND
        QXCH    ASKQ
        CCS     ORBON
        TC      ASKQ
        CA      ONE
        TS      ORBON
        CA      PRIO10
        TC      NOVAC
        2CADR   ORBJOB
        TC      ASKQ

# WAITLIST: a new task, in bank 06. A has the delay, 2 to 7999; the two words after the call are its address and banks. It wants INHINT before.
WAITLIST TS     WAITDT
        EXTEND
        INDEX   Q
        DCA     0
        DXCH    NEWLOC
        EXTEND
        QXCH    RUPTQ
        CA      RUPTBB
        XCH     BBANK
        TS      WAITBB
        TC      WAIT1
        CA      WAITBB
        TS      BBANK
        INDEX   RUPTQ
        TC      2
TWELVE  DEC     12
FIRSTSET DEC    148         # CORESETS less MPAC
LESSLAST DEC    -196        # the last set
LESS10  DEC     -10
PRIO10  OCT     10000
PRIO30  OCT     30000
