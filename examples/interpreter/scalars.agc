# SCALARS: numbers of two words. A product and a shift leave three: the third is the rest below.

# Loads. SLOAD loads one word. PDDL pushes MPAC before that.
DLOAD   EXTEND
        INDEX   ADDRWD
        DCA     0
DLOAD1  DXCH    MPAC
        CA      ZERO
DLOAD2  TS      MPAC +2
        CA      ZERO
        TS      MODE
        TCF     NEXTOP
SLOAD   INDEX   ADDRWD
        CA      0
        TS      MPAC
        CA      ZERO
        TS      MPAC +1
        TCF     DLOAD2
TLOAD   INDEX   ADDRWD
        CA      2
        TS      MPAC +2
        EXTEND
        INDEX   ADDRWD
        DCA     0
        DXCH    MPAC
        CA      ONE
        TS      MODE
        TCF     NEXTOP
PDDL    EXTEND
        INDEX   ADDRWD
        DCA     0
        DXCH    BUF
        TC      PUSHSUB
        EXTEND
        DCA     BUF
        TCF     DLOAD1

# Sums. DAS leaves +1 or -1 in A if the sum is too great, and OVERFLOW keeps that.
BDSU    TC      NEGATE      # X - MPAC
DAD     EXTEND
        INDEX   ADDRWD
        DCA     0
        TCF     +4
DSU     EXTEND
        INDEX   ADDRWD
        DCS     0
        DAS     MPAC
OVERFLOW EXTEND
        BZF     NEXTOP
        TS      OVFIND
        TCF     NEXTOP
TAD     TC      TADSUB
        TCF     OVERFLOW

# TADSUB: MPAC and the three words at ADDRWD are added. A has what is carried out of MPAC.
TADSUB  INDEX   ADDRWD
        CA      2
        AD      MPAC +2
        TS      MPAC +2     # if there is overflow, this skips, with +1 or -1 in A
        CA      ZERO
        TS      L
        CA      ZERO
        DAS     MPAC
        TS      TEM
        EXTEND
        INDEX   ADDRWD
        DCA     0
        DAS     MPAC
        AD      TEM
        TC      Q

# Products. DMPR rounds, DSQ squares.
DMP     TC      DMPSUB
        TCF     NEXTOP
DMPR    TC      DMPSUB
        TCF     ROUND
DSQ     EXTEND
        DCA     MPAC
        DXCH    BUF
        CA      ADRBUF
        TS      ADDRWD
        TCF     DMP
ROUND   TC      ROUNDSUB
        EXTEND
        BZF     +2
        TS      OVFIND
        CA      ZERO
        TS      MODE
        TCF     NEXTOP

# DMPSUB: MPAC is multiplied by the scalar at ADDRWD, and has three words. The product of the two second words counts by its first
# word alone.
DMPSUB  CA      MPAC +1
        EXTEND
        INDEX   ADDRWD
        MP      1
        TS      MPAC +2
        CA      ZERO
        XCH     MPAC +1
        EXTEND
        INDEX   ADDRWD
        MP      0
        DAS     MPAC +1
        CA      MPAC
        EXTEND
        INDEX   ADDRWD
        MP      1
        DAS     MPAC +1
        XCH     MPAC        # (what DAS carried)
        EXTEND
        INDEX   ADDRWD
        MP      0
        DAS     MPAC
        TC      Q

# ROUNDSUB: MPAC's third word is a half or more: the second one gains 1. A has what is carried out of MPAC.
ROUNDSUB CA     MPAC +2
        DOUBLE
        TS      MPAC +2
        CA      ZERO
        TS      L
        CA      ZERO
        TS      MPAC +2
        DAS     MPAC
        TC      Q

# Signs. SIGN: the complement, if X is minus.
SIGN    INDEX   ADDRWD
        CA      0
        EXTEND
        BZF     +2
        TCF     +3
        INDEX   ADDRWD
        CA      1
        EXTEND
        BZF     NEXTOP
        EXTEND
        BZMF    DCOMP
        TCF     NEXTOP
DCOMP   TC      NEGATE
        CCS     MODE
        TCF     NEXTOP
        TCF     NEXTOP
        EXTEND              # a vector's other parts
        DCS     MPAC +3
        DXCH    MPAC +3
        EXTEND
        DCS     MPAC +5
        DXCH    MPAC +5
        TCF     NEXTOP
NEGATE  EXTEND
        DCS     MPAC
        DXCH    MPAC
        CS      MPAC +2
        TS      MPAC +2
        TC      Q

# POSMPAC: MPAC's size, with all three words positive; SIGNWD has its sign. A number may have words of both signs, and is not
# changed by this: a word gains 16384, and the one above loses 1.
POSMPAC EXTEND
        QXCH    RETURN3
        CA      ONE
        TS      SIGNWD
        TC      SIGNUM
        EXTEND
        BZF     POSIT
        EXTEND
        BZMF    +2
        TCF     POSIT
        TC      NEGATE
        CS      ONE
        TS      SIGNWD
POSIT   CA      MPAC +2
        AD      POSMAX
        AD      ONE
        TS      MPAC +2     # this skips if the word was not minus, with +1 in A
        CA      ZERO
        AD      MPAC +1
        AD      POSMAX
        TS      MPAC +1
        TCF     +2
        TCF     +4
        CS      ONE
        AD      MPAC
        TS      MPAC
        CCS     MPAC
        TC      RETURN3
        TC      RETURN3
        NOOP
        CA      ZERO        # -0, as 1 - 1 is, becomes +0
        TS      MPAC
        TC      RETURN3

# RESIGN: MPAC gets the sign in SIGNWD
RESIGN  CCS     SIGNWD
        TC      Q
        TC      Q
        TCF     NEGATE

# DOUBLE3: twice MPAC, three words. A has what is carried out of it.
DOUBLE3 CA      MPAC +2
        DOUBLE
        TS      MPAC +2
        CA      ZERO
        AD      MPAC +1
        AD      MPAC +1
        TS      MPAC +1
        CA      ZERO
        AD      MPAC
        AD      MPAC
        TS      MPAC
        CA      ZERO
        TC      Q

# Quotients
BDDV    EXTEND              # X / MPAC
        DCA     MPAC
        DXCH    BUF
        EXTEND
        INDEX   ADDRWD
        DCA     0
        DXCH    MPAC
        CA      ZERO
        TS      MPAC +2
        TCF     +5
DDV     EXTEND
        INDEX   ADDRWD
        DCA     0
        DXCH    BUF
        TC      DIVIDE
        TCF     OVERFLOW

# DIVIDE: MPAC is divided by the scalar in BUF. Both are made positive and shifted up until the divisor is at least a half; then DV by
# its first word gives each word of the quotient, which may be one or two too great: what is left is then minus, and gains a divisor.
# If the quotient is 1 or more, it is the greatest number, and A is not a zero.
DIVIDE  EXTEND
        QXCH    RETURNQ
        EXTEND
        DCA     BUF
        DXCH    MPAC
        DXCH    BUF
        CA      ZERO
        XCH     MPAC +2
        TS      BUF +2
        TC      POSMPAC
        CA      SIGNWD
        TS      SIGND
        DXCH    MPAC
        DXCH    BUF
        DXCH    MPAC
        CA      BUF +2
        TS      MPAC +2
        TC      POSMPAC
        CS      BUF
        AD      MPAC
        EXTEND
        BZF     DIVEQUAL
        EXTEND
        BZMF    DIVSHIFT
DIVOVER CA      POSMAX
        TS      MPAC
        TS      MPAC +1
        CA      ZERO
        TS      MPAC +2
        TC      DIVSIGN
        CA      ONE
        TC      RETURNQ
DIVEQUAL CS     BUF +1
        AD      MPAC +1
        EXTEND
        BZF     DIVOVER
        EXTEND
        BZMF    +2
        TCF     DIVOVER
DIVSHIFT CA     BUF
        MASK    BIT14
        CCS     A
        TCF     +6
        EXTEND
        DCA     BUF
        DAS     BUF
        TC      DOUBLE3
        TCF     DIVSHIFT
        TC      DIVWORD
        TS      QUOT
        TC      DIVWORD
        TS      MPAC +1
        CA      QUOT
        TS      MPAC
        TC      DIVSIGN
        CA      ZERO
        TC      RETURNQ
DIVSIGN CA      SIGND
        AD      SIGNWD
        EXTEND
        BZF     NEGATE      # one of both was minus
        TC      Q
DIVWORD CS      BUF
        AD      MPAC
        EXTEND
        BZF     DIVMOST
        EXTEND
        DCA     MPAC
        EXTEND
        DV      BUF
        TS      DIGITQ
        LXCH    REM
        CA      ZERO
        TCF     DIVREST
DIVMOST CA      POSMAX
        TS      DIGITQ
        CA      MPAC +1
        TS      REM
        CA      BUF
DIVREST TS      EXTRA
        CA      DIGITQ
        EXTEND
        MP      BUF +1
        TS      P0
        CS      L
        AD      MPAC +2
        AD      POSMAX
        AD      ONE
        TS      MPAC +1
        CA      ZERO
        AD      NEGONE
        AD      REM
        EXTEND
        SU      P0
        AD      EXTRA
        TS      MPAC
        CA      ZERO
        TS      MPAC +2
DIVFIX  CCS     MPAC
        TCF     +3
        TCF     +2
        TCF     +3
        CA      DIGITQ
        TC      Q
        CS      ONE
        ADS     DIGITQ
        EXTEND
        DCA     BUF
        DAS     MPAC
        TCF     DIVFIX

# Shifts. Short ones have all in the code: bit 4 to the right; a scalar 1 to 4 places, and bit 5 off rounds; a vector 1 to 8.
SHORTS  CA      CODE
        MASK    BIT4
        TS      WAY
        CS      CODE
        MASK    BIT5
        TS      ROUNDS
        CCS     MODE
        TCF     SHORTSC
        TCF     SHORTSC
        CA      CODE
        EXTEND
        MP      BIT11
        TCF     +4
SHORTSC CA      CODE
        EXTEND
        MP      BIT10
        AD      ONE
        TS      COUNT
        TCF     SHIFT

# General shifts: bit 9 to the right, bit 10 rounds, bits 7 to 1 the places. If an index register has made these minus, bit 8 is off,
# and the shift goes the other way.
GSHIFT  CA      ADDRWD
        MASK    BIT9
        TS      WAY
        CA      ADDRWD
        MASK    BIT10
        TS      ROUNDS
        CA      ADDRWD
        MASK    LOW7
        TS      COUNT
        CA      ADDRWD
        MASK    BIT8
        CCS     A
        TCF     SHIFT
        CS      COUNT
        AD      BIT8
        TS      COUNT
        CS      WAY
        AD      BIT9
        TS      WAY
SHIFT   CCS     MODE
        TCF     +5
        TCF     +4
        CA      ADRPART     # a vector: each part, and those to the right are rounded
        TC      EACH
        TCF     NEXTOP
        TC      SHIFTSUB
        CA      ROUNDS
        EXTEND
        BZF     NEXTOP
        TCF     ROUND
SHIFTV  EXTEND
        QXCH    RETURN4
        TC      SHIFTSUB
        CA      WAY
        EXTEND
        BZF     +2
        TC      ROUNDSUB
        TC      RETURN4
SHIFTSUB CA     WAY
        EXTEND
        BZF     LEFT

# RIGHT, LEFT: three words of MPAC are shifted by COUNT places.
RIGHT   CA      COUNT
        TS      TEM
        AD      LESS14
        EXTEND
        BZMF    +8D
        XCH     TEM
        CA      ZERO
        XCH     MPAC
        XCH     MPAC +1
        TS      MPAC +2
        CA      TEM
        TCF     RIGHT +1
        CA      TEM
        EXTEND
        BZF     RIGHTEND
        INDEX   TEM
        CA      BIT15       # the power of two
        TS      TEM
        EXTEND
        MP      MPAC +2
        TS      MPAC +2
        CA      ZERO
        XCH     MPAC +1
        EXTEND
        MP      TEM
        DAS     MPAC +1
        CA      ZERO
        XCH     MPAC
        EXTEND
        MP      TEM
        DAS     MPAC
RIGHTEND TC     Q
LEFT    EXTEND
        QXCH    RETURNQ
        TC      POSMPAC
        CA      COUNT
        TS      TEM
LEFT1   CCS     TEM
        TCF     +3
        TC      RESIGN
        TC      RETURNQ
        TS      TEM
        TC      DOUBLE3
        EXTEND
        BZF     LEFT1
        TS      OVFIND
        TCF     LEFT1

# NORM: shifts MPAC to the left until bit 14 of it is on. X is minus the number of places.
NORM    CA      ZERO
        TS      COUNT
        TC      POSMPAC
        TC      SIGNUM
        EXTEND
        BZF     NORMEND     # nothing to be shifted
NORM1   CA      MPAC
        MASK    BIT14
        CCS     A
        TCF     NORMEND
        TC      DOUBLE3
        INCR    COUNT
        TCF     NORM1
NORMEND TC      RESIGN
        CS      COUNT
        INDEX   ADDRWD
        TS      0
        TCF     NEXTOP
