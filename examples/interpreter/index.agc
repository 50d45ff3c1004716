# INDEX: index registers, branches and switches. POLISH has the operand, XREG the work area of the register.

# MYCELL: the cell whose address POLISH has
MYCELL  CA      POLISH
        TCF     CELL

AXT     CA      POLISH
SETX    INDEX   XREG
        XCH     X1          # (TS would skip if there is overflow)
        TCF     NEXTOP
AXC     CS      POLISH
        TCF     SETX
LXA     TC      MYCELL
        INDEX   ADDRWD
        CA      0
        TCF     SETX
LXC     TC      MYCELL
        INDEX   ADDRWD
        CS      0
        TCF     SETX
SXA     TC      MYCELL
        INDEX   XREG
        CA      X1
        INDEX   ADDRWD
        TS      0
        TCF     NEXTOP
XCHX    TC      MYCELL
        INDEX   XREG
        CA      X1
        INDEX   ADDRWD
        XCH     0
        TCF     SETX
INCRX   CA      POLISH
ADDX    INDEX   XREG
        AD      X1
        TCF     SETX
XAD     TC      MYCELL
        INDEX   ADDRWD
        CA      0
        TCF     ADDX
XSU     TC      MYCELL
        INDEX   ADDRWD
        CS      0
        TCF     ADDX

# TIX: the register less its step. If that is positive, it is the register, and the program branches.
TIX     INDEX   XREG
        CS      S1
        INDEX   XREG
        AD      X1
        EXTEND
        BZMF    NEXTOP
        INDEX   XREG
        XCH     X1

# GOTO: POLISH has a CADR, or the address of a cell that has it. The right operation of the pair is dropped.
GOTO    CCS     POLISH
        TCF     GOTOPLUS
        TCF     GOTOCELL
        NOOP
GOTOCADR CA     BANKSET     # the program keeps its EB
        TS      BBANK
        CA      POLISH
        TS      FBANK
        MASK    LOW10
        AD      WINDOW
        TS      LOC
        CA      BBANK
        TS      BANKSET
        CA      ZERO
        TS      EDOP
        TCF     FETCH
GOTOPLUS AD     LESS2046
        EXTEND
        BZMF    GOTOCELL
        TCF     GOTOCADR
GOTOCELL TC     MYCELL
        INDEX   ADDRWD
        CA      0
        TS      POLISH
        TCF     GOTO

# CALL: QPRET is the CADR of the word after the operand. RVQ goes there, STQ keeps it.
CALL    CA      LOC
        AD      LESS2047
        EXTEND
        BZMF    +3
        CA      LOC         # (an address in banks 02 and 03 is its CADR)
        TCF     +6
        CA      BANKSET
        MASK    HIGH5
        XCH     LOC
        MASK    LOW10
        AD      LOC
        AD      ONE
        INDEX   FIXLOC
        XCH     QPRET
        TCF     GOTO
RVQ     INDEX   FIXLOC
        CA      QPRET
        TS      POLISH
        TCF     GOTO
STQ     TC      MYCELL
        INDEX   FIXLOC
        CA      QPRET
        INDEX   ADDRWD
        TS      0
        TCF     NEXTOP

# RTB: calls a routine in basic code, which comes back by TC Q and must leave EDOP alone.
RTB     CA      POLISH
        TS      FBANK
        MASK    LOW10
        AD      WINDOW
        INDEX   A
        TC      0
        TCF     NEXTOP

# BZE, BPL and BMN look at the three words of a scalar, BHIZ at the first one, BOV and BOVB at OVFIND.
BZE     TC      SIGNUM
        EXTEND
        BZF     GOTO
        TCF     NEXTOP
BPL     TC      SIGNUM
        EXTEND
        BZF     GOTO
        EXTEND
        BZMF    NEXTOP
        TCF     GOTO
BMN     TC      SIGNUM
        EXTEND
        BZF     NEXTOP
        EXTEND
        BZMF    GOTO
        TCF     NEXTOP
BHIZ    CA      MPAC
        EXTEND
        BZF     GOTO
        TCF     NEXTOP
BOV     CA      ZERO
        XCH     OVFIND
        EXTEND
        BZF     NEXTOP
        TCF     GOTO
BOVB    CA      ZERO
        XCH     OVFIND
        EXTEND
        BZF     NEXTOP
        TCF     RTB

# SIGNUM: A has the first word of MPAC's three that is not a zero, or the last one
SIGNUM  CA      MPAC
        EXTEND
        BZF     +2
        TC      Q
        CA      MPAC +1
        EXTEND
        BZF     +2
        TC      Q
        CA      MPAC +2
        TC      Q

# CGOTO and CCALL: the cell's number picks a CADR of a list, whose place is the next word.
CCALL   TC      PICK
        TCF     CALL
CGOTO   TC      PICK
        TCF     GOTO
PICK    INCR    LOC
        INDEX   ADDRWD
        CA      0
        TS      POLISH
        CA      BANKSET
        TS      BBANK
        INDEX   LOC
        CA      0
        TS      ADDRWD
        TS      FBANK
        MASK    LOW10
        AD      WINDOW
        AD      POLISH
        INDEX   A
        CA      0
        TS      POLISH
        CA      BANKSET
        TS      BBANK
        TC      Q

# SSP: puts the next word into the cell
SSP     INCR    LOC
        INDEX   LOC
        CA      0
        INDEX   ADDRWD
        TS      0
        TCF     NEXTOP

# SETPD: the push-down list goes on at that word of the work area
SETPD   CA      ADDRWD
        TS      PUSHLOC
        TCF     NEXTOP

# Switches. POLISH has the word in STATE from bit 9 on, what becomes of the switch in bits 8 and 7, when to branch in bits 6 and 5, and
# the number of the bit, from bit 15 down, below.
SWITCHES CA     POLISH
        MASK    LOW4
        INDEX   A
        CA      BIT15
        TS      SWITCHB
        CA      POLISH
        EXTEND
        MP      BIT7
        TS      SWITCHNO
        INDEX   SWITCHNO
        CA      STATE
        MASK    SWITCHB
        TS      SWITCHED
        CA      POLISH
        EXTEND
        MP      BIT9
        MASK    THREE
        INDEX   A
        TCF     +1
        TCF     SWSET
        TCF     SWINVERT
        TCF     SWCLEAR
SWBRANCH CA     POLISH
        EXTEND
        MP      BIT11
        MASK    THREE
        TS      SWITCHB
        AD      LESS3
        EXTEND
        BZF     NEXTOP      # there is no place to branch to
        INCR    LOC
        INDEX   LOC
        CA      0
        TS      POLISH
        CA      SWITCHED
        INDEX   SWITCHB
        TCF     +1
        TCF     SWIFON
        TCF     GOTO
        EXTEND              # if it was off
        BZF     GOTO
        TCF     NEXTOP
SWIFON  EXTEND
        BZF     NEXTOP
        TCF     GOTO
SWINVERT CA     SWITCHED
        EXTEND
        BZF     SWSET
SWCLEAR CS      SWITCHB
        INDEX   SWITCHNO
        MASK    STATE
SWPUT   INDEX   SWITCHNO
        TS      STATE
        TCF     SWBRANCH
SWSET   CS      SWITCHB
        INDEX   SWITCHNO
        MASK    STATE
        AD      SWITCHB
        TCF     SWPUT
