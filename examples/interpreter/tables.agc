# TABLES: the routine of each operation, and constants

# Operations with an address, by a quarter of the code
ADDRJUMP TCF    VLOAD
        TCF     TAD
        TCF     SIGN
        TCF     VXSC
        TCF     CGOTO
        TCF     TLOAD
        TCF     DLOAD
        TCF     VOVERSC
        TCF     SLOAD
        TCF     SSP
        TCF     PDDL
        TCF     MXV
        TCF     PDVL
        TCF     CCALL
        TCF     VXM
        TCF     NORM
        TCF     DMPR
        TCF     DDV
        TCF     BDDV
        TCF     GSHIFT      # SL, SR, SLR, SRR, VSL, VSR
        TCF     VAD
        TCF     VSU
        TCF     BVSU
        TCF     DOT
        TCF     VXV
        TCF     VPROJ
        TCF     DSU
        TCF     BDSU
        TCF     DAD
        TCF     BADCODE     # (no operation)
        TCF     DMP
        TCF     SETPD

# The words that the first eight of these pop, if they have no operand; the others pop as many as MODE says
POPWORDS DEC    6           # VLOAD
        DEC     3           # TAD
        DEC     2           # SIGN
        DEC     0           # VXSC: POPTABLE counts them
        DEC     0           # (CGOTO needs its operand)
        DEC     3           # TLOAD
        DEC     2           # DLOAD
        DEC     0           # V/SC
        DEC     6           # a vector,
WORDS   DEC     2           # a scalar of two words,
        DEC     3           # and one of three

# Operations without an operand, by an eighth of the code
UNAJUMP TCF     EXIT
        TCF     SQRT
        TCF     SINE
        TCF     COSINE
        TCF     ARCSIN
        TCF     ARCCOS
        TCF     DSQ
        TCF     ROUND
        TCF     DCOMP
        TCF     VDEF
        TCF     UNIT
        TCF     ABVAL
        TCF     VSQ
        TCF     STADR
        TCF     RVQ
        TCF     PUSH

# Operations that take their operand's word as it is, by a quarter of the code: ,2 and ,1
WORDJUMP TCF    AXT
        TCF     AXT
        TCF     AXC
        TCF     AXC
        TCF     LXA
        TCF     LXA
        TCF     LXC
        TCF     LXC
        TCF     SXA
        TCF     SXA
        TCF     XCHX
        TCF     XCHX
        TCF     INCRX
        TCF     INCRX
        TCF     TIX
        TCF     TIX
        TCF     XAD
        TCF     XAD
        TCF     XSU
        TCF     XSU
        TCF     BZE
        TCF     GOTO
        TCF     BPL
        TCF     BMN
        TCF     RTB
        TCF     BHIZ
        TCF     CALL
        TCF     STQ
        TCF     SWITCHES
        TCF     BADCODE
        TCF     BOVB
        TCF     BOV

# What follows a store, by its kind from 3 on: DLOAD, DLOAD*, VLOAD, VLOAD*, CALL
STORECDS OCT    031
        OCT     033
        OCT     001
        OCT     003
        OCT     152

# Constants. From BIT15 on each is half of the one before: INDEX finds a power of two.
BIT15   OCT     40000
BIT14   OCT     20000
BIT13   OCT     10000
        OCT     04000
BIT11   OCT     02000
WINDOW  EQUALS  BIT11       # where FBANK's bank begins
BIT10   OCT     01000
BIT9    OCT     00400
BIT8    OCT     00200
BIT7    OCT     00100
        OCT     00040
BIT5    OCT     00020
BIT4    OCT     00010
BIT3    OCT     00004
FOUR    EQUALS  BIT3
TWO     OCT     00002
ONE     OCT     00001
EWINDOW OCT     01400       # where EBANK's bank begins
POSMAX  OCT     37777
HIGH5   OCT     76000
LOW11   OCT     03777
LOW10   OCT     01777
LOW8    OCT     00377
LOW7    OCT     00177
LOW4    OCT     00017
THREE   OCT     00003
SIX     OCT     00006
NEGONE  DEC     -1
LESS1   EQUALS  NEGONE
LESS2   DEC     -2
LESS3   DEC     -3
LESS6   DEC     -6
LESS7   DEC     -7
LESS14  DEC     -14
LESS44  DEC     -44
LESS63  DEC     -63
LESS2046 DEC    -2046
LESS2047 DEC    -2047
ADRBUF  ADRES   BUF
ADRPART ADRES   SHIFTV
ADRFACT ADRES   FACTOR
ADRRES  ADRES   RESULTV
ADRVEC  ADRES   VEC
ADRVXSC ADRES   VXSCPART
ADRVSC  ADRES   VSCPART
ADRDOT  ADRES   DOTPART
ADRSUM  ADRES   SUM
ADRSIZE ADRES   SIZEPART
ADRUNIT ADRES   UNITPART
ADRROOT ADRES   VEC +2
TOP2    OCT     30000       # bits 14 and 13
SEVEN16 DEC     .4375       # the first guess of a root
NINE16  DEC     .5625
MOST    OCT     37777       # the greatest number
        OCT     37777
FOURTEEN DEC    14

# Polynomials: the number of coefficients less 2, and these from the highest power down. sin(90 degrees z) / 2 is z times this one
# in z squared, from 0 to 1, to 2 parts in 10 to the 11th,
SINPOLY DEC     4
        2DEC    -.0000017159
        2DEC    .0000801273
        2DEC    -.0023408289
        2DEC    .0398463018
        2DEC    -.3229820478
        2DEC    .7853981634
# and arccos(x), in revolutions, is the root of (1 - x) / 2 times this one, from 0 to 1.
ACOSPOLY DEC    8
        2DEC    -.0000889969
        2DEC    .0005578300
        2DEC    -.0016587084
        2DEC    .0032632005
        2DEC    -.0051313689
        2DEC    .0074948116
        2DEC    -.0114199643
        2DEC    .0200420481
        2DEC    -.0483023560
        2DEC    .3535533905
