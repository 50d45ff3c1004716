# DISPATCH: takes the words of a program one by one, and finds the routine and the operand of each operation. The interpreter is
# in banks 02 and 03, which are always in reach: FBANK is free for the bank of an operand.

# INTPRET: what follows TC INTPRET is in the interpretive language, up to EXIT.
INTPRET EXTEND
        QXCH    LOC
        CA      BBANK
        TS      BANKSET
        CA      ZERO
        TS      EDOP
        TCF     FETCH

# EXIT: the word after it is a basic order.
EXIT    CA      BANKSET
        TS      BBANK
        INDEX   LOC
        TC      1

# NEXTOP: where each operation ends. The right one of a pair is next, or a new word. EDOP has the right code and one more, and
# CCS empties it.
NEXTOP  CA      BANKSET
        TS      BBANK
        CCS     EDOP
        TCF     OPJUMP
        INCR    LOC
FETCH   INDEX   LOC
        CA      0
        CCS     A
        TCF     STORES      # a store is positive
        TCF     BADWORD
        TCF     +2          # a pair is the complement of 200 (right + 1) + left + 1, and A now of 200 (right + 1) + left
        TCF     BADWORD
        TS      EDOP        # keeps right + 1 in bits 7 to 1
        MASK    LOW7

# OPJUMP: does the operation whose code is in A. If bit 1 is on, it has an address; bit 2 then means an index register. If
# bit 1 is off, bit 2 means an operand that is taken as it is, and bit 3 alone a short shift.
OPJUMP  TS      CODE
        TS      CYR
        EXTEND
        MP      BIT13
        TS      OPNO
        CCS     CYR         # turned once: bit 1 is the sign
        TCF     NOADDR
        TCF     NOADDR
        CCS     CYR         # turned twice: bit 2 is the sign
        TCF     DIRECT
        TCF     DIRECT

# The operand is indexed: the address less the index register. The complement of the word means X2.
        INCR    LOC
        INDEX   LOC
        CA      0
        CCS     A
        TCF     BYX1
        TCF     BADWORD
        TCF     BYX2
        TCF     BADWORD
BYX2    TS      ADDRWD
        CA      ONE
        TCF     +3
BYX1    TS      ADDRWD
        CA      ZERO
        AD      FIXLOC
        TS      XREG
        CA      ADDRWD
        AD      LESS2047
        EXTEND
        BZMF    +4
        CA      BANKSET     # an address in fixed memory is in the half of the program
        MASK    BIT15
        ADS     ADDRWD
        INDEX   XREG
        CS      X1
        AD      ADDRWD
        XCH     ADDRWD
        CCS     ADDRWD
        TCF     +4
        TCF     BYCELL
        TCF     BYCADR      # bit 15 is on
        TCF     BYCELL
        AD      LESS2046
        EXTEND
        BZMF    BYCELL
        TCF     BYCADR
BYCELL  CA      ADDRWD
        TC      XCELL
        TCF     OPERATE

# The operand is direct. If a negative word is next, there is none: it is popped from the push-down list.
DIRECT  INDEX   LOC
        CA      1
        CCS     A
        TCF     +4
        TCF     BADWORD
        TCF     POPPED
        TCF     BADWORD
        INCR    LOC
        TS      ADDRWD
        AD      LESS2047
        EXTEND
        BZMF    INCELL
        CA      BANKSET
        MASK    BIT15
        ADS     ADDRWD
BYCADR  CA      ADDRWD
        TS      FBANK
        MASK    LOW10
        AD      WINDOW
        TS      ADDRWD
OPERATE INDEX   OPNO
        TCF     ADDRJUMP
INCELL  CA      ADDRWD
        TC      CELL
        TCF     OPERATE

# POPPED: as many words as the operation takes, by POPWORDS for the first eight, else by MODE.
POPPED  CA      OPNO
        AD      LESS7
        EXTEND
        BZMF    POPTABLE
POPMODE INDEX   MODE
        CS      WORDS
POP     ADS     PUSHLOC
        TS      ADDRWD
        TCF     OPERATE
POPTABLE INDEX  OPNO
        CS      POPWORDS
        EXTEND
        BZF     +2
        TCF     POP
        CCS     MODE        # VXSC and V/SC: a scalar for a vector, a vector for a scalar
        TCF     +4
        TCF     +3
        CS      TWO
        TCF     POP
        CS      SIX
        TCF     POP

# CELL: A has the address of a cell, up to 3777. ADDRWD is what an order names it by, and EB its bank. Words 0 to 44 (decimal) are
# those of the work area. XCELL: the same for an indexed address, up to 63.
CELL    TS      ADDRWD
        AD      LESS44
        EXTEND
        BZMF    +7
        CA      ADDRWD      # EBANK takes the bank's bits alone
        TS      EBANK
        MASK    LOW8
        AD      EWINDOW
        TS      ADDRWD
        TC      Q
        CA      FIXLOC
        ADS     ADDRWD
        TC      Q
XCELL   TS      ADDRWD
        AD      LESS63
        TCF     CELL +2

# NOADDR: no address in this sense. CYR is turned twice.
NOADDR  CCS     CYR
        TCF     UNARY
        TCF     UNARY
        CA      CODE        # the operand's word is taken as it is. Bit 3 on: X1
        MASK    BIT3
        EXTEND
        BZF     +2
        CS      ONE
        AD      ONE
        AD      FIXLOC
        TS      XREG
        INCR    LOC
        INDEX   LOC
        CA      0
        TS      POLISH
        INDEX   OPNO
        TCF     WORDJUMP

# UNARY: no operand. CYR is turned three times: bit 3 is the sign, and if it is off, CYR is the number of the operation.
UNARY   CA      CODE
        MASK    BIT3
        EXTEND
        BZF     +2
        TCF     SHORTS
        INDEX   CYR
        TCF     UNAJUMP

# A word that has no meaning, and an operation that this interpreter does not know: the machine stays here. LOC is the address of the
# word, and CODE the operation.
BADWORD TCF     BADWORD
BADCODE TCF     BADCODE
