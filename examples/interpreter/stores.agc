# STORES: a store has its kind in bits 14 to 12, and the address and one more below. STORE goes by MODE; the others then do another
# operation.
STORES  TS      ADDRWD      # A has the word less 1
        EXTEND
        MP      BIT4
        TS      STORENO
        CA      ADDRWD
        MASK    LOW11
        TS      ADDRWD
        CCS     STORENO
        TCF     +2
        TCF     STORE0      # STORE X
        AD      LESS1
        EXTEND
        BZMF    +2
        TCF     STORE0
        CA      STORENO     # STORE X,1 and STORE X,2
        AD      LESS1
        AD      FIXLOC
        TS      XREG
        INDEX   XREG
        CS      X1
        AD      ADDRWD
        TC      XCELL
        TCF     +3
STORE0  CA      ADDRWD
        TC      CELL
        TC      PUTMPAC
        CA      STORENO     # STODL, STOVL and STCALL have another operation's code
        AD      LESS2
        EXTEND
        BZMF    NEXTOP
        INDEX   STORENO
        CA      STORECDS -3
        TCF     OPJUMP

# STADR: the next word is the complement of a store. It is negative, so that an operand before it may be popped.
STADR   INCR    LOC
        INDEX   LOC
        CS      0
        CCS     A
        TCF     STORES
        TCF     BADWORD
        TCF     BADWORD
        TCF     BADWORD

# PUTMPAC: MPAC goes to ADDRWD, as many words as MODE says. PUSHSUB: the same on the push-down list.
PUTMPAC CCS     MODE
        TCF     PUT3
        TCF     PUT2
        EXTEND
        DCA     MPAC +5
        INDEX   ADDRWD
        DXCH    4
        EXTEND
        DCA     MPAC +3
        INDEX   ADDRWD
        DXCH    2
        TCF     PUT2
PUT3    CA      MPAC +2
        INDEX   ADDRWD
        TS      2
PUT2    EXTEND
        DCA     MPAC
        INDEX   ADDRWD
        DXCH    0
        TC      Q
PUSHSUB CA      PUSHLOC
        TS      ADDRWD
        INDEX   MODE
        CA      WORDS
        ADS     PUSHLOC
        TCF     PUTMPAC
PUSH    TC      PUSHSUB
        TCF     NEXTOP
