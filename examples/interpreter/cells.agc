# CELLS: channels and the cells of the interpreter. All of its cells are in erasable banks 0 to 2, which any order can name; so
# an operand's bank may be in EB while the interpreter works. Numbers are octal but for those of DEC.

LCHAN   EQUALS  1           # L as a channel

# ---- the work area, by its words
X1      EQUALS  46          # the first index register; the second one, X2, is the next word
S1      EQUALS  50          # the step of X1, then that of X2
QPRET   EQUALS  52          # where RVQ goes back to
SQUARED EQUALS  42          # UNIT: the square of the length,
LENGTH  EQUALS  44          # and the length

        SETLOC  0100
FIXLOC  ERASE               # the address of the work area
ADDRWD  ERASE               # the operand's address, at last as an order can name it
POLISH  ERASE               # an operand's word that is taken as it is: a CADR, a constant, a switch
CODE    ERASE               # the code of the operation in hand, 7 bits
OPNO    ERASE               # a quarter of that
XREG    ERASE               # the address of the work area, for X2 one more
OVFIND  ERASE               # not a zero: a result was too great. BOV and BOVB clear it
STORENO ERASE               # the kind of a store, 0 to 7
SWITCHNO ERASE              # switches: the number of the word in STATE,
SWITCHB ERASE               # the switch's bit,
SWITCHED ERASE              # and that bit as it was: not a zero if it was on
RETURNQ ERASE               # where subroutines go back to: the first level,
RETURN2 ERASE               # the second,
RETURN3 ERASE               # the third,
RETURN4 ERASE               # the fourth,
RETURN5 ERASE               # and the fifth
BUF     ERASE   +5          # six words, for a scalar or a vector
TEM     ERASE   +1          # what a routine keeps meanwhile
SIGNWD  ERASE               # the sign of MPAC before POSMPAC made it positive, +1 or -1
COUNT   ERASE               # a shift: how many places,
WAY     ERASE               # not a zero: to the right,
ROUNDS  ERASE               # not a zero: it rounds
SIGND   ERASE               # DIVIDE: the sign of the divisor,
QUOT    ERASE               # the first word of the quotient,
DIGITQ  ERASE               # the word in hand,
REM     ERASE               # what it leaves,
EXTRA   ERASE               # what is to be added to that,
P0      ERASE               # and subtracted
        SETLOC  0154
MPAC    ERASE   +6          # the accumulator. A scalar has two or three words; a vector's parts are in 0 and 1, 3 and 4, 5 and 6
MODE    ERASE               # what it holds: +0 a scalar of two words, +1 one of three, -1 a vector
LOC     ERASE               # the address of the word in hand,
BANKSET ERASE               # and its banks
PUSHLOC ERASE               # where the push-down list goes on, an address
        SETLOC  0200
WORKAREA ERASE  +54         # 45 words: the push-down list, and the index registers, steps and QPRET from word 38 on
STATE   ERASE   +13         # 180 switches; switch 0 is bit 15 of the first word
        SETLOC  0300
VEC     ERASE   +5          # a vector that routines keep,
RESULTV ERASE   +5          # and one that they make
FACTOR  ERASE   +1          # a scalar for each part of a vector, and the argument of a polynomial
SUM     ERASE   +2          # a sum of products, three words
ROUTINE ERASE               # EACH: the routine,
PARTS   ERASE               # and how many parts are left
ROW     ERASE               # matrices: the row in hand,
ROWSTEP ERASE               # what leads to the next row,
PARTSTEP ERASE              # and from part to part
ROOT    ERASE               # the root as far as it is known
ROOTUPS ERASE               # by how many pairs of places its square was shifted up
UPS     ERASE               # by how many places a vector was shifted up
ACOSSIGN ERASE              # ARCCOS: the sign of the argument
