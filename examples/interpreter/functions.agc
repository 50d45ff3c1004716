# FUNCTIONS: root, length, unit vector, sine, arc cosine and their kin

# SQRTSUB: the root of MPAC's three words. MPAC goes up by pairs of places until it is 1/4 or more, and then down by one place.
# With h for that half, a better root than r is r / 2 + h / r: twice in one word, and once in two. Below zero: 0, and OVFIND.
SQRT    TC      SQRTSUB
        CA      ZERO
        TS      MODE
        TCF     NEXTOP
SQRTSUB EXTEND
        QXCH    RETURN2
        CA      ZERO
        TS      ROOTUPS
        TC      POSMPAC
        TC      SIGNUM
        EXTEND
        BZF     SQRTEND
        CCS     SIGNWD
        TCF     SQRT1
        NOOP
        CA      ONE
        TS      OVFIND
        CA      ZERO
        TS      MPAC
        TS      MPAC +1
        TS      MPAC +2
SQRTEND TC      RETURN2
SQRT1   CA      MPAC
        MASK    TOP2
        CCS     A
        TCF     SQRT2
        TC      DOUBLE3
        TC      DOUBLE3
        INCR    ROOTUPS
        TCF     SQRT1
SQRT2   CA      MPAC
        EXTEND
        MP      NINE16
        AD      SEVEN16
        TS      ROOT
        CA      ONE
        TS      COUNT
        TC      RIGHT
        TC      NEWTON
        TC      NEWTON
        CA      ROOT
        TS      BUF
        CA      ZERO
        TS      BUF +1
        TC      DIVIDE
        CA      ROOT
        EXTEND
        MP      BIT14       # half of it, and the bit that leaves in L
        DAS     MPAC
        EXTEND
        BZF     +4
        EXTEND              # just 1
        DCA     MOST
        DXCH    MPAC
        CA      ROOTUPS
        TS      COUNT
        TC      RIGHT
        TC      RETURN2
NEWTON  CA      ROOT
        EXTEND
        MP      BIT14
        TS      TEM
        EXTEND
        DCA     MPAC
        EXTEND
        DV      ROOT
        AD      TEM
        TS      ROOT        # skips if it is 1
        TC      Q
        CA      POSMAX
        TS      ROOT
        TC      Q

# Lengths. NORMV: the vector goes up until its greatest part is 1/4 or more and less than 1/2; UPS says how far, -1 for down.
ABVAL   CCS     MODE
        TCF     +3
        TCF     +2
        TCF     ABVALV
        TC      SIGNUM
        EXTEND
        BZMF    +2
        TCF     NEXTOP
        TC      NEGATE
        TCF     NEXTOP
ABVALV  TC      NORMV
        TC      SQUAREV
        TC      SQRTSUB
        TC      SCALEUP
        TCF     NEXTOP

# UNIT: half of the unit vector. The length and its square go to the work area.
UNIT    TC      NORMV
        CA      ADRVEC
        TS      ADDRWD
        TC      PUTMPAC
        TC      SQUAREV
        TC      SQRTSUB
        EXTEND
        DCA     MPAC
        DXCH    FACTOR
        TC      SCALEUP
        EXTEND
        DCA     MPAC
        INDEX   FIXLOC
        DXCH    LENGTH
        EXTEND
        DCA     MPAC
        DXCH    BUF
        CA      ADRBUF
        TS      ADDRWD
        TC      DMPSUB
        EXTEND
        DCA     MPAC
        INDEX   FIXLOC
        DXCH    SQUARED
        CA      ADRVEC
        TS      ADDRWD
        TC      GETVEC
        CA      ADRUNIT
        TC      EACH
        TCF     NEXTOP
UNITPART EXTEND
        QXCH    RETURN4
        CA      ONE
        TS      COUNT
        TC      RIGHT
        TCF     VSCPART +2

# SCALEUP: the length of the vector as it was before NORMV
SCALEUP EXTEND
        QXCH    RETURN5
        CA      UPS
        TS      COUNT
        CCS     UPS
        TCF     +6
        TC      RETURN5
        CA      ONE         # it went down by one place
        TS      COUNT
        TC      LEFT
        TC      RETURN5
        TC      RIGHT
        TC      RETURN5
NORMV   EXTEND
        QXCH    RETURN5
        CA      ZERO
        TS      UPS
NORMV1  CA      ZERO
        TS      SUM
        CA      ADRSIZE
        TC      EACH
        CA      ZERO
        TS      COUNT
        TS      WAY
        CA      SUM
        EXTEND
        BZF     NORMV14
        MASK    BIT14
        CCS     A
        TCF     NORMVDN
NORMV2  CA      SUM
        MASK    TOP2
        CCS     A
        TCF     NORMV3
        CA      SUM
        DOUBLE
        TS      SUM
        INCR    COUNT
        TCF     NORMV2
NORMV3  CA      COUNT
        ADS     UPS
NORMV4  CA      ADRPART
        TC      EACH
        TC      RETURN5
NORMVDN CA      ONE
        TS      COUNT
        TS      WAY
        CS      ONE
        ADS     UPS
        TCF     NORMV4
NORMV14 CCS     UPS         # all first words are zeros: 14 places, once
        TC      RETURN5
        CA      FOURTEEN
        TS      UPS
        TS      COUNT
        CA      ADRPART
        TC      EACH
        TCF     NORMV1
SIZEPART EXTEND
        QXCH    RETURN4
        TC      POSMPAC
        CA      MPAC
        TS      L
        CA      SUM
        EXTEND
        ROR     LCHAN
        TS      SUM
        TC      RESIGN
        TC      RETURN4

# POLY: the polynomial whose table has the address after the call, of FACTOR. The result is in MPAC.
POLY    EXTEND
        QXCH    RETURN4
        INDEX   RETURN4
        CA      0
        TS      ROW
        CA      ADRFACT
        TS      ADDRWD
        EXTEND
        INDEX   ROW
        DCA     1
        DXCH    MPAC
        INDEX   ROW
        CA      0
POLY1   TS      PARTS
        CA      TWO
        ADS     ROW
        TC      DMPSUB
        EXTEND
        INDEX   ROW
        DCA     1
        DAS     MPAC
        CCS     PARTS
        TCF     POLY1
        INDEX   RETURN4
        TC      1

# SINE, COSINE: of MPAC in revolutions; half of the value. The angle is doubled twice, and at each time the half or the quarter of a turn
# that it leaves behind is one of the other sign or direction.
COSINE  CA      MPAC
        AD      BIT13       # a quarter of a turn more
        XCH     MPAC        # (a whole turn is dropped)
SINE    TC      POSMPAC
        CA      ZERO
        TS      MPAC +2
        TS      MODE
        TC      DOUBLE3
        EXTEND
        BZF     +3
        CS      SIGNWD
        TS      SIGNWD
        CA      MPAC
        MASK    BIT14
        EXTEND
        BZF     SINE1
        EXTEND              # beyond a quarter: a half less that
        DCS     MPAC
        DXCH    MPAC
        EXTEND
        DCA     MOST
        DAS     MPAC
        CA      ONE
        TS      L
        CA      ZERO
        DAS     MPAC
SINE1   TC      DOUBLE3
        EXTEND
        BZF     +4
        EXTEND              # just a quarter
        DCA     MOST
        DXCH    MPAC
        EXTEND
        DCA     MPAC
        DXCH    BUF
        CA      ADRBUF
        TS      ADDRWD
        TC      DMPSUB
        EXTEND
        DCA     MPAC
        DXCH    FACTOR
        TC      POLY
        ADRES   SINPOLY
        CA      ADRBUF
        TS      ADDRWD
        TC      DMPSUB
        TC      RESIGN
        TCF     NEXTOP

# ARCCOS, ARCSIN: of twice MPAC, in revolutions. Beyond 1: OVFIND, as if it were 1.
ARCSIN  TC      ACOSSUB     # a quarter less the other one
        TC      NEGATE
        CA      ZERO
        TS      L
        CA      BIT13
        DAS     MPAC
        TCF     NEXTOP
ARCCOS  TC      ACOSSUB
        TCF     NEXTOP
ACOSSUB EXTEND
        QXCH    RETURN5
        TC      POSMPAC
        CA      ZERO
        TS      MPAC +2
        TS      MODE
        CA      SIGNWD
        TS      ACOSSIGN
        EXTEND
        DCA     MPAC
        DXCH    VEC
        TC      NEGATE
        CA      ZERO
        TS      L
        CA      BIT14
        DAS     MPAC
        TC      SQRTSUB
        EXTEND
        DCA     MPAC
        DXCH    VEC +2
        EXTEND
        DCA     VEC
        DAS     VEC
        EXTEND
        DCA     VEC
        DXCH    FACTOR
        TC      POLY
        ADRES   ACOSPOLY
        CA      ADRROOT
        TS      ADDRWD
        TC      DMPSUB
        CCS     ACOSSIGN
        TC      RETURN5
        NOOP
        TC      NEGATE      # a half less that
        CA      ZERO
        TS      L
        CA      BIT14
        DAS     MPAC
        TC      RETURN5
