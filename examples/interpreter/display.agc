# DISPLAY: the display and the nouns, in bank 07. In the manner of examples/descent.
# DISPJOB: PROG, what the crew's monitor or else the program shows, flash and KEY REL; twice a second, and after each key.
DISPJOB TC      LIVE
        TC      IGNWATCH
        CA      TWENTY1
        TS      DSPPOS
        CA      MODREG
        TC      DSPTWO
        CCS     DSPLOCK
        TCF     CREW
        CCS     PROWAIT     # the program's
        CA      BIT6W
        TS      DSPBITS
        CA      PDNOUN
        EXTEND
        BZF     DISPLAMP
        TS      NOUNREG
        CA      PDVERB
        TCF     DISPNOUN
CREW    CCS     PDNOUN
        CA      BIT5
        TS      DSPBITS
        CCS     INMODE
        TCF     +3
        TCF     MONITOR
        TCF     CREWLOAD
        CCS     V37ON       # a program or a number is awaited
        TCF     CREWLOAD
        TCF     DISPLAMP
CREWLOAD CA     BIT6W
        ADS     DSPBITS
        TCF     DISPLAMP
MONITOR CA      MONNOUN
        EXTEND
        BZF     DISPLAMP
        TS      NOUNREG
        CA      SIXTEEN
DISPNOUN TS     VERBREG
        TC      PUTVERB
        TC      FIND
        TC      SHOWNOUN
DISPLAMP INHINT
        CS      KRFLASH
        EXTEND
        RAND    LAMPS
        AD      DSPBITS
        EXTEND
        WRITE   LAMPS
        TC      ENDOFJOB
BIT6W   OCT     40
SIXTEEN DEC     16
KRFLASH OCT     60

# DSPTWO: two digits of the number in A, below 100, from the place in DSPPOS down; PUTVERB: in VERB.
PUTVERB TS      L
        CA      NINETEEN
        TS      DSPPOS
        CA      L
DSPTWO  EXTEND
        MP      TENTH
        LXCH    MPAC +6
        INDEX   A
        CA      DIGCODE
        INDEX   DSPPOS
        TS      DIGITS
        CA      MPAC +6
        EXTEND
        MP      TEN
        INDEX   A
        CA      DIGCODE
        INDEX   DSPPOS
        TS      DIGITS -1
        TC      Q
TENTH   DEC     1639
NINETEEN DEC    19
# DSPSIGN: at register REGNO a plus or minus, as A is plus or minus; none for +0.
DSPSIGN ZL
        TS      MPAC +6
        INDEX   REGNO
        CA      SIGNROWS
        TS      DIGIT
        CCS     MPAC +6
        TCF     +4
        TCF     +5
        CA      BIT11
        TCF     +3
        CA      BIT11
        XCH     L
        INDEX   DIGIT       # minus, and plus one row on
        DXCH    SIGNS
        TC      Q
SIGNROWS DEC    5
        DEC     3
        DEC     0

# A noun's four words: what it is, and its number; the cells of its registers. 0 before the number: three numbers, which are only shown; 3:
# they can be loaded; 10: one time in hours, minutes and hundredths of a second; 13: it can be loaded. A cell of - is a time in minutes
# and seconds. All cells have DP whole numbers. A zero ends the table: new nouns go before it.
NOUNTAB VN      1032        # 32: time to perilune
        ADRES   TOPERI
        ADRES   NOTHING
        ADRES   NOTHING
        VN      1333        # 33: time of ignition
        ADRES   TIG
        ADRES   NOTHING
        ADRES   NOTHING
        VN      1036        # 36: the clock
        ADRES   TIME2
        ADRES   NOTHING
        ADRES   NOTHING
        VN      1338        # 38: the time of the state
        ADRES   TIMEN
        ADRES   NOTHING
        ADRES   NOTHING
        VN      0040        # 40: time from ignition (min, s), speed to be gained, speed gained (0.1 m/s)
        -ADRES  FROMTIG
        ADRES   VGO
        ADRES   VDONE
        VN      0042        # 42: the planned orbit: apolune, perilune (0.1 nautical miles), the burn (0.1 m/s)
        ADRES   HAPO2
        ADRES   HPERI2
        ADRES   DVMAG
        VN      0044        # 44: apolune, perilune (0.1 nautical miles), time to perilune (min, s)
        ADRES   HAPO
        ADRES   HPERI
        -ADRES  TOPERI
        VN      0381        # 81: a burn forward, to the right, down (0.1 m/s)
        ADRES   BURNN
        ADRES   BURNN +2
        ADRES   BURNN +4
        VN      0395        # 95: place (0.1 km)
        ADRES   PLACEN
        ADRES   PLACEN +2
        ADRES   PLACEN +4
        VN      0396        # 96: speed (0.1 m/s)
        ADRES   SPEEDN
        ADRES   SPEEDN +2
        ADRES   SPEEDN +4
        OCT     0
NOUNADR ADRES   NOUNTAB

# FIND: NNPTR = the place of noun NOUNREG in NOUNTAB, and KIND2 1 if it is a time. Without such a noun the key was wrong.
FIND    CA      NOUNADR
        TS      NNPTR
        INDEX   NNPTR
        CA      0
        EXTEND
        BZF     NONOUN
        MASK    LOW7
        EXTEND
        SU      NOUNREG
        EXTEND
        BZF     FOUND
        CA      FOUR
        AD      NNPTR
        TCF     FIND +1
NONOUN  CA      ZERO
        TS      MONNOUN
        TCF     WRONGKEY
FOUND   CA      ZERO
        TS      KIND2
        INDEX   NNPTR
        CA      0
        EXTEND
        MP      BIT8
        AD      LESS6
        EXTEND
        BZMF    +3
        CA      ONE
        TS      KIND2
        TC      Q

# SHOWNOUN: noun NOUNREG, which FIND has found, in NOUN and in the three registers.
SHOWNOUN EXTEND
        QXCH    SHOWQ
        CA      SEVENTEN
        TS      DSPPOS
        CA      NOUNREG
        TC      DSPTWO
        CCS     KIND2
        TCF     SHOWTIME
        CA      TWO
SHOW1   TS      REGNO
        CA      ZERO
        TS      KIND
        CA      NNPTR
        AD      REGNO
        INDEX   A
        CA      1
        TS      SHOWADR
        EXTEND
        BZMF    +2
        TCF     +5
        COM                 # minutes and seconds
        TS      SHOWADR
        CA      ONE
        TS      KIND
        EXTEND
        INDEX   SHOWADR
        DCA     0
        DXCH    MPAC
        TC      MAGN
        CCS     KIND
        TCF     SHOWMIN
        TC      SHOWREG
SHOW2   CCS     REGNO
        TCF     SHOW1
        TC      SHOWQ
# Minutes and seconds: 59 and 59 if it is an hour or more.
SHOWMIN CA      DSIGN
        TC      DSPSIGN
        CS      MPAC
        AD      TWENTY1
        EXTEND
        BZMF    MINMOST     # 360,448 hundredths or more
        CA      SIXK
        TS      DIVISOR
        EXTEND
        DCA     MPAC
        EXTEND
        DV      DIVISOR
        TS      MPAC
        LXCH    MPAC +1
        AD      LESS59
        EXTEND
        BZMF    +4
MINMOST EXTEND
        DCA     MINLAST
        DXCH    MPAC
        INDEX   REGNO
        CA      LASTPOSN
        AD      FOUR
        TS      DSPPOS
        CA      MPAC
        TC      DSPTWO
        CS      TWO
        ADS     DSPPOS
        CA      ZERO
        INDEX   DSPPOS
        TS      DIGITS
        CS      ONE
        ADS     DSPPOS
        CA      HUNDRED
        TS      DIVISOR
        CA      MPAC +1
        TS      L
        CA      ZERO
        EXTEND
        DV      DIVISOR
        TC      DSPTWO
        TCF     SHOW2
MINLAST DEC     59
        DEC     5999
# A time: hours, minutes and hundredths of a second, 273 hours at most.
SHOWTIME INDEX  NNPTR
        CA      1
        TS      SHOWADR
        EXTEND
        INDEX   SHOWADR
        DCA     0
        DXCH    MPAC
        TC      MAGN
        CS      MPAC
        AD      SIXK
        EXTEND
        BZMF    TIMEFULL
        TCF     +4
TIMEFULL CA     SIXK
        AD      LESS1
        TS      MPAC
        CA      SIXK
        TS      DIVISOR
        EXTEND
        DCA     MPAC
        EXTEND
        DV      DIVISOR
        LXCH    CLOCKED +5
        TS      L
        CA      SIXTY
        TS      DIVISOR
        CA      ZERO
        EXTEND
        DV      DIVISOR
        TS      CLOCKED +1
        LXCH    CLOCKED +3
        CA      TWO
TIME1ST TS      REGNO
        DOUBLE
        INDEX   A
        CA      CLOCKED +1
        TS      MPAC +1
        CA      ZERO
        TS      MPAC
        TC      SHOWREG
        CCS     REGNO
        TCF     TIME1ST
        TC      SHOWQ

# SHOWREG: the DP number MPAC, with the sign DSIGN, in register REGNO; 99999 if it is more. Its share of 100000 is multiplied by ten five
# times, and what comes before the point is the digit. A whole number times .16384 / 16384 is that share.
SHOWREG EXTEND
        QXCH    SHOWQ2
        CA      DSIGN
        TC      DSPSIGN
        CA      MPAC        # 100000 is 6 times 16384, and 1696
        AD      LESS6
        EXTEND
        BZMF    SHOWFITS
SHOWMOST EXTEND
        DCA     MOSTWHOL
        DXCH    MPAC
        TCF     SHOWGO
SHOWFITS EXTEND
        BZF     +2
        TCF     SHOWGO
        CS      MPAC +1
        AD      MOSTWHOL +1
        EXTEND
        BZMF    SHOWMOST
SHOWGO  EXTEND
        DCA     ROUND5
        DXCH    MPAC +2
        CA      MPAC +1     # the lower word
        EXTEND
        MP      SHARE +1
        TS      L
        CA      ZERO
        DAS     MPAC +2
        CA      MPAC +1
        EXTEND
        MP      SHARE
        DAS     MPAC +2
        CA      MPAC        # and the upper one
        EXTEND
        MP      SHARE +1
        DAS     MPAC +2
        CA      MPAC
        EXTEND
        MP      SHARE
        CA      L
        ADS     MPAC +2
        CA      FOUR
SHOWDIG TS      MPAC +5
        INDEX   REGNO
        AD      LASTPOSN
        TS      DSPPOS
        CA      MPAC +3
        EXTEND
        MP      TEN
        LXCH    MPAC +3
        TS      MPAC +6
        CA      MPAC +2
        EXTEND
        MP      TEN
        TS      DIGIT
        CA      L
        AD      MPAC +6
        TS      MPAC +2
        CA      ZERO
        AD      DIGIT       # and a carry
        INDEX   A
        CA      DIGCODE
        INDEX   DSPPOS
        TS      DIGITS
        CCS     MPAC +5
        TCF     SHOWDIG
        TC      SHOWQ2
SHARE   2DEC    .16384
ROUND5  2DEC    .000005
MOSTWHOL DEC    6
        DEC     1695

# MAGN: DSIGN = the sign of the DP number MPAC, +1 or -1; MPAC becomes its magnitude, and both words positive.
MAGN    CA      ONE
        TS      DSIGN
        CA      MPAC
        EXTEND
        BZF     +2
        TCF     +2
        CA      MPAC +1
        EXTEND
        BZF     MAGN1
        EXTEND
        BZMF    +2
        TCF     MAGN1
        CS      ONE
        TS      DSIGN
        EXTEND
        DCS     MPAC
        DXCH    MPAC
MAGN1   CCS     MPAC +1
        TCF     MAGN3
        TCF     MAGN3
        TCF     MAGN2
        CA      ZERO
        TS      MPAC +1
        TCF     MAGN3
MAGN2   CA      MPAC +1
        AD      POSMAX
        AD      ONE
        TS      MPAC +1
        CS      ONE
        ADS     MPAC
MAGN3   CA      MPAC        # -0 becomes +0
        EXTEND
        BZF     +2
        TC      Q
        CA      ZERO
        TS      MPAC
        TC      Q
SEVENTEN DEC    17
HUNDRED DEC     100
LESS59  DEC     -59
