# VECTORS: three scalars. MPAC has them in words 0 and 1, 3 and 4, 5 and 6; the memory has six words.

# EACH: calls the routine whose address is in A for each part of MPAC, as a scalar of three words in words 0 to 2.
EACH    TS      ROUTINE
        EXTEND
        QXCH    RETURN2
        CA      TWO
EACH1   TS      PARTS
        CA      ZERO
        TS      MPAC +2
        INDEX   ROUTINE
        TC      0
        DXCH    MPAC        # the next part comes to the front
        DXCH    MPAC +5
        DXCH    MPAC +3
        DXCH    MPAC
        CCS     PARTS
        TCF     EACH1
        TC      RETURN2

# Loads
VLOAD   TC      GETVEC
        TCF     NEXTOP
PDVL    TC      GETBUF
        TC      PUSHSUB
        CA      ADRBUF
        TS      ADDRWD
        TCF     VLOAD
GETVEC  EXTEND
        INDEX   ADDRWD
        DCA     4
        DXCH    MPAC +5
        EXTEND
        INDEX   ADDRWD
        DCA     2
        DXCH    MPAC +3
        EXTEND
        INDEX   ADDRWD
        DCA     0
        DXCH    MPAC
        CS      ONE
        TS      MODE
        TC      Q
GETBUF  EXTEND              # the operand to BUF
        INDEX   ADDRWD
        DCA     4
        DXCH    BUF +4
        EXTEND
        INDEX   ADDRWD
        DCA     2
        DXCH    BUF +2
        EXTEND
        INDEX   ADDRWD
        DCA     0
        DXCH    BUF
        TC      Q

# VDEF: MPAC is the first part; the second and the third are popped.
VDEF    CS      FOUR
        ADS     PUSHLOC
        EXTEND
        INDEX   PUSHLOC
        DCA     2
        DXCH    MPAC +3
        EXTEND
        INDEX   PUSHLOC
        DCA     0
        DXCH    MPAC +5
        CS      ONE
        TS      MODE
        TCF     NEXTOP

# Sums
VSU     TC      VNEGATE     # -(X - MPAC)
        TC      VADD
        TC      VNEGATE
        TCF     NEXTOP
BVSU    TC      VNEGATE
VAD     TC      VADD
        TCF     NEXTOP
VADD    EXTEND
        INDEX   ADDRWD
        DCA     0
        DAS     MPAC
        EXTEND
        BZF     +2
        TS      OVFIND
        EXTEND
        INDEX   ADDRWD
        DCA     2
        DAS     MPAC +3
        EXTEND
        BZF     +2
        TS      OVFIND
        EXTEND
        INDEX   ADDRWD
        DCA     4
        DAS     MPAC +5
        EXTEND
        BZF     +2
        TS      OVFIND
        TC      Q
VNEGATE EXTEND
        DCS     MPAC
        DXCH    MPAC
        EXTEND
        DCS     MPAC +3
        DXCH    MPAC +3
        EXTEND
        DCS     MPAC +5
        DXCH    MPAC +5
        TC      Q

# VXSC, V/SC: each part times a scalar, or over it. MODE says which of MPAC and X is the vector.
VXSC    TC      VECTSCAL
        CA      ADRFACT
        TS      ADDRWD
        CA      ADRVXSC
        TC      EACH
        TCF     NEXTOP
VOVERSC TC      VECTSCAL
        CA      ADRVSC
        TC      EACH
        TCF     NEXTOP
VECTSCAL CCS    MODE
        TCF     +7
        TCF     +6
        EXTEND
        INDEX   ADDRWD
        DCA     0
        DXCH    FACTOR
        TC      Q
        EXTEND
        DCA     MPAC
        DXCH    FACTOR
        TCF     GETVEC
VXSCPART EXTEND
        QXCH    RETURN4
        TC      DMPSUB
        TC      ROUNDSUB
        TC      RETURN4
VSCPART EXTEND
        QXCH    RETURN4
        EXTEND
        DCA     FACTOR
        DXCH    BUF
        TC      DIVIDE
        EXTEND
        BZF     +2
        TS      OVFIND
        TC      RETURN4

# Products. DOTSUB: the sum of the parts of MPAC times those of BUF, three words, in MPAC.
VPROJ   CA      ADDRWD      # (MPAC . X) X
        TS      ROW
        TC      GETBUF
        TC      DOTSUB
        CA      ROW
        TS      ADDRWD
        TCF     VXSC
DOT     TC      GETBUF
        TC      DOTSUB
        TCF     NEXTOP
VSQ     TC      SQUAREV
        TCF     NEXTOP
SQUAREV CA      ADRBUF
        TS      ADDRWD
        EXTEND
        QXCH    ROW
        TC      PUTMPAC
        EXTEND
        QXCH    ROW
DOTSUB  EXTEND
        QXCH    RETURN3
        CA      ADRBUF
        TS      ADDRWD
        CA      ZERO
        TS      SUM
        TS      SUM +1
        TS      SUM +2
        TS      MODE
        CA      ADRDOT
        TC      EACH
        EXTEND
        DCA     SUM
        DXCH    MPAC
        CA      SUM +2
        TS      MPAC +2
        TC      RETURN3
DOTPART EXTEND
        QXCH    RETURN4
        TC      DMPSUB
        CA      TWO
        ADS     ADDRWD
        CA      MPAC +2
        AD      SUM +2
        TS      SUM +2
        CA      ZERO
        TS      L
        CA      ZERO
        DAS     SUM
        TS      TEM
        EXTEND
        DCA     MPAC
        DAS     SUM
        AD      TEM
        EXTEND
        BZF     +2
        TS      OVFIND
        TC      RETURN4

# MXV, VXM: a matrix has its three rows one behind the other. MXV goes along a row and then to the next one, VXM down a column.
MXV     CA      SIX
        TS      ROWSTEP
        CA      TWO
        TCF     +4
VXM     CA      TWO
        TS      ROWSTEP
        CA      SIX
        TS      PARTSTEP
        CA      ADDRWD
        TS      ROW
        CA      ADRVEC
        TS      ADDRWD
        TC      PUTMPAC
        CA      ZERO
MXV1    TS      COUNT
        CA      ADRVEC
        TS      ADDRWD
        TC      GETBUF
        EXTEND
        INDEX   ROW
        DCA     0
        DXCH    MPAC
        CA      ROW
        AD      PARTSTEP
        TS      TEM
        EXTEND
        INDEX   TEM
        DCA     0
        DXCH    MPAC +3
        CA      PARTSTEP
        ADS     TEM
        EXTEND
        INDEX   TEM
        DCA     0
        DXCH    MPAC +5
        TC      DOTSUB
        TC      ROUNDSUB
        EXTEND
        BZF     +2
        TS      OVFIND
        EXTEND
        DCA     MPAC
        INDEX   COUNT
        DXCH    RESULTV
        CA      ROWSTEP
        ADS     ROW
        CA      COUNT
        AD      TWO
        TS      TEM
        AD      LESS6
        EXTEND
        BZF     +3
        CA      TEM
        TCF     MXV1
GETRES  CA      ADRRES
        TS      ADDRWD
        TCF     VLOAD

# VXV: part k is MPAC's part i times X's part j, less j times i. COUNT, ROW and PARTSTEP have k, i and j, doubled, and turn.
VXV     TC      GETBUF
        CA      ADRVEC
        TS      ADDRWD
        TC      PUTMPAC
        CA      ZERO
        TS      COUNT
        CA      TWO
        TS      ROW
        CA      FOUR
VXV1    TS      PARTSTEP
        AD      ADRBUF
        TS      ADDRWD
        EXTEND
        INDEX   ROW
        DCA     VEC
        DXCH    MPAC
        TC      DMPSUB
        EXTEND
        DCA     MPAC
        DXCH    SUM
        CA      MPAC +2
        TS      SUM +2
        CA      ROW
        AD      ADRBUF
        TS      ADDRWD
        EXTEND
        INDEX   PARTSTEP
        DCS     VEC
        DXCH    MPAC
        TC      DMPSUB
        CA      ADRSUM
        TS      ADDRWD
        TC      TADSUB
        EXTEND
        BZF     +2
        TS      OVFIND
        TC      ROUNDSUB
        EXTEND
        BZF     +2
        TS      OVFIND
        EXTEND
        DCA     MPAC
        INDEX   COUNT
        DXCH    RESULTV
        CA      PARTSTEP
        XCH     ROW
        XCH     COUNT       # A has k, the next j
        TS      PARTSTEP
        CCS     COUNT
        TCF     +2
        TCF     GETRES
        CA      PARTSTEP
        TCF     VXV1
