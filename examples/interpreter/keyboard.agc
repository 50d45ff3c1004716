# KEYBOARD: the jobs of the keys, in bank 07. In the manner of examples/descent.
        BANK    7
# CHARIN: the job of a key, whose code is in MPAC.
CHARIN  CS      BIT5
        AD      MPAC
        EXTEND
        BZMF    NUMBER      # 0 has 20, 1 to 9 themselves
        INDEX   A
        TCF     KEYTAB -1
KEYTAB  TCF     VERB        # 21
        TCF     RSET
        TCF     DISPJOB
        TCF     DISPJOB
        TCF     DISPJOB
        TCF     DISPJOB
        TCF     DISPJOB
        TCF     DISPJOB
        TCF     KEYREL      # 31
        TCF     PLUS
        TCF     MINUS
        TCF     ENTER
        TCF     DISPJOB
        TCF     KEYCLR
        TCF     NOUN        # 37
VERB    CA      ONE
        TCF     +2
NOUN    CA      TWO
        TS      INMODE
        CA      ZERO
        TS      V37ON
BEGINVN CA      ONE         # a verb or a noun is to be keyed
        TS      DSPLOCK
        TS      INSIGN
        CA      TWO
        TS      TOCOME
        INDEX   INMODE
        CA      VNPOS -1
        TS      LASTPOS
        CA      ZERO
        INDEX   INMODE
        TS      VERBREG -1
        INDEX   LASTPOS
        TS      DIGITS
        INDEX   LASTPOS
        TS      DIGITS +1
        TCF     DISPJOB
VNPOS   DEC     18
        DEC     16

# A digit: VERBREG, NOUNREG or INVAL times ten, and the digit.
NUMBER  CA      MPAC
        MASK    LOW4
        TS      DIGIT
        CA      INSIGN
        EXTEND
        BZF     WRONGKEY    # a number begins with a sign
        CCS     TOCOME
        TCF     +2
        TCF     DISPJOB     # no digit is wanted
        TS      TOCOME
        AD      LASTPOS
        TS      DSPPOS
        INDEX   DIGIT
        CA      DIGCODE
        INDEX   DSPPOS
        TS      DIGITS
        CCS     INMODE
        TCF     TWODIGIT
        TCF     DISPJOB
        CA      INVAL
        EXTEND
        MP      TEN
        LXCH    INVAL
        CA      INVAL +1
        EXTEND
        MP      TEN
        LXCH    INVAL +1
        ADS     INVAL
        CA      DIGIT
        TS      L
        CA      ZERO
        DAS     INVAL
        TCF     DISPJOB
TWODIGIT TS     KIND        # 0 verb, 1 noun
        INDEX   KIND
        CA      VERBREG
        EXTEND
        MP      TEN
        CA      L
        AD      DIGIT
        INDEX   KIND
        TS      VERBREG
        TCF     DISPJOB
WRONGKEY CA     BIT7        # OPR ERR
        EXTEND
        WOR     LAMPS
        TCF     DISPJOB
DIGCODE 2OCT    0002500003
        2OCT    0003100033
        2OCT    0001700036
        2OCT    0003400023
        2OCT    0003500037
PLUS    CA      ONE
        TCF     +2
MINUS   CS      ONE
        TS      DIGIT
        CA      INMODE
        EXTEND
        BZMF    +2
        TCF     DISPJOB
        CS      FIVE
        AD      TOCOME
        EXTEND
        BZF     +2
        TCF     DISPJOB     # a sign comes before a number
        CA      DIGIT
        TS      INSIGN
        TC      DSPSIGN
        TCF     DISPJOB

# CLR: the number begins again; if nothing of it is keyed yet, the one before it does.
KEYCLR  CCS     INMODE
        TCF     DISPJOB
        TCF     DISPJOB
        CS      FIVE
        AD      TOCOME
        EXTEND
        BZF     +2
        TCF     BEGINREG
        CA      INSIGN
        EXTEND
        BZF     +2
        TCF     BEGINREG
        CA      REGNO
        EXTEND
        SU      FIRSTREG
        EXTEND
        BZF     BEGINREG
        CS      ONE
        ADS     REGNO
BEGINREG CA     REGNO       # register REGNO is to be keyed: it is blank, and the verb names it
        AD      TWENTY1
        TC      PUTVERB
        INDEX   REGNO
        CA      LASTPOSN
        TS      LASTPOS
        CA      FIVE
        TS      TOCOME
        CA      ZERO
        TS      INSIGN
        TS      INVAL
        TS      INVAL +1
        INDEX   LASTPOS
        TS      DIGITS
        INDEX   LASTPOS
        TS      DIGITS +1
        INDEX   LASTPOS
        TS      DIGITS +2
        INDEX   LASTPOS
        TS      DIGITS +3
        INDEX   LASTPOS
        TS      DIGITS +4
        TC      DSPSIGN
        TCF     DISPJOB
LASTPOSN DEC    10
        DEC     5
        DEC     0
RSET    CA      ZERO
        TS      SIGNS +13
        CS      BIT7
        EXTEND
        WAND    LAMPS
        TCF     DISPJOB
# KEY REL: the program has the display again.
KEYREL  TCF     RELEASE

# ENTR: a number is complete, or verb 37 has its program, or the verb is carried out.
ENTER   CCS     INMODE
        TCF     +3
        TCF     +2
        TCF     ENTDATA
        CCS     V37ON
        TCF     ENTV37
        CA      ZERO
        TS      INMODE
        TS      TOCOME
        TS      MONNOUN
        CA      ONE
        TS      DSPLOCK
        CA      LASTVERB    # through the table of verbs
ENTER1  TS      KIND
        INDEX   KIND
        CA      VERBTAB
        EXTEND
        SU      VERBREG
        EXTEND
        BZF     ENTER2
        CA      KIND
        EXTEND
        BZF     WRONGKEY
        AD      LESS2
        TCF     ENTER1
ENTER2  INDEX   KIND
        TCF     VERBTAB +1
LASTVERB DEC    20
VERBTAB DEC     6
        TCF     VERB06
        DEC     16
        TCF     VERB16
        DEC     21
        TCF     LOAD
        DEC     22
        TCF     LOAD
        DEC     23
        TCF     LOAD
        DEC     24
        TCF     LOAD
        DEC     25
        TCF     LOAD
        DEC     33
        TCF     PROKEY
        DEC     36
        TCF     GOSTART
        DEC     37
        TCF     VERB37
        DEC     82
        TCF     VERB82
VERB06  TC      FIND
        TC      LIVE
        TC      SHOWNOUN
        TCF     DISPJOB
VERB16  TC      FIND
        CA      NOUNREG
        TS      MONNOUN
        TCF     DISPJOB

# Verbs 21 to 25 load the registers FIRSTREG to LASTREG of a noun that can be loaded; a time only as a whole.
LOAD    TC      FIND
        CA      VERBREG
        DOUBLE
        EXTEND
        INDEX   A
        DCA     LOADREGS -52
        DXCH    FIRSTREG
        INDEX   NNPTR
        CA      0
        EXTEND
        MP      BIT8        # what the noun is: 0 no load, 3 numbers, 10 a time that is only shown, 13 a time
        TS      KIND
        EXTEND
        BZF     WRONGKEY
        AD      LESS10
        EXTEND
        BZF     WRONGKEY
        EXTEND
        BZMF    LOAD1
        CS      TWENTY5     # a time
        AD      VERBREG
        EXTEND
        BZF     +2
        TCF     WRONGKEY
LOAD1   CA      LESS3
        TS      INMODE
        CA      FIRSTREG
        TS      REGNO
        TCF     BEGINREG
LOADREGS 2OCT   0000000000
        2OCT    0000100001
        2OCT    0000200002
        2OCT    0000000001
        2OCT    0000000002
# A number is keyed: it wants a sign and five digits.
ENTDATA CA      INSIGN
        EXTEND
        BZF     ENTWRONG
        CA      TOCOME
        EXTEND
        BZF     ENTGOOD
ENTWRONG CA     BIT7        # it begins again
        EXTEND
        WOR     LAMPS
        TCF     BEGINREG
ENTGOOD CA      REGNO
        DOUBLE
        TS      SHOWADR
        EXTEND
        DCA     INVAL
        INDEX   SHOWADR
        DXCH    LOADBUF
        CCS     INSIGN
        TCF     +7
        NOOP
        EXTEND              # minus
        INDEX   SHOWADR
        DCS     LOADBUF
        INDEX   SHOWADR
        DXCH    LOADBUF
        CA      REGNO
        EXTEND
        SU      LASTREG
        EXTEND
        BZF     +3
        INCR    REGNO
        TCF     BEGINREG
        CA      KIND2       # all are there
        EXTEND
        BZF     ENTNUMS
        TCF     ENTTIME
ENTNUMS CA      FIRSTREG
ENTNUM  TS      REGNO
        DOUBLE
        TS      SHOWADR
        CA      NNPTR
        AD      REGNO
        INDEX   A
        CA      1
        TS      DSPPOS
        EXTEND
        INDEX   SHOWADR
        DCA     LOADBUF
        INDEX   DSPPOS
        DXCH    0
        CA      REGNO
        EXTEND
        SU      LASTREG
        EXTEND
        BZF     RELEASE
        CA      REGNO
        AD      ONE
        TCF     ENTNUM
# Hours, minutes and hundredths of a second become one number: not below zero, at most 240 hours, 59 minutes, 59.99 s.
ENTTIME CA      TWO
TIMELOOP TS     REGNO
        DOUBLE
        TS      SHOWADR
        INDEX   SHOWADR
        CA      LOADBUF
        EXTEND
        BZF     +2
        TCF     TIMEBAD     # minus, or too great
        INDEX   SHOWADR
        CA      LOADBUF +1
        EXTEND
        BZF     TIMEGOOD
        EXTEND
        BZMF    TIMEBAD
        INDEX   REGNO
        AD      TIMEMOST
        EXTEND
        BZMF    TIMEGOOD
TIMEBAD CA      BIT7        # OPR ERR: all three begin again
        EXTEND
        WOR     LAMPS
        CA      FIRSTREG
        TS      REGNO
        TCF     BEGINREG
TIMEGOOD CCS    REGNO
        TCF     TIMELOOP
        CA      LOADBUF +1  # hours
        EXTEND
        MP      SIXTY
        CA      L
        AD      LOADBUF +3  # minutes
        EXTEND
        MP      SIXK
        DXCH    LOADBUF
        CA      LOADBUF +5
        TS      L
        CA      ZERO
        DAS     LOADBUF
        INDEX   NNPTR
        CA      1
        TS      DSPPOS
        EXTEND
        DCA     LOADBUF
        INDEX   DSPPOS
        DXCH    0
        CS      THIRTY8     # noun 38: place, speed and time are one state
        AD      NOUNREG
        EXTEND
        BZF     +2
        TCF     RELEASE
        INHINT
        CA      THREE
        TC      ASK
        RELINT
RELEASE TC      FREEDISP
        TCF     DISPJOB
FREEDISP CA     ZERO        # the crew has the display no more
        TS      V37ON
        TS      INMODE
        TS      TOCOME
        TS      MONNOUN
        TS      DSPLOCK
        TC      Q
TIMEMOST DEC    -240
        DEC     -59
        DEC     -5999
# Verb 33, and PRO, answer the program that waits.
PROKEY  CA      PROWAIT
        EXTEND
        BZF     WRONGKEY    # none waits
        TS      SHOWADR
        TC      FREEDISP
        TS      PROWAIT
        INDEX   SHOWADR
        TC      0
FIVE    DEC     5
TEN     DEC     10
TWENTY1 DEC     21
TWENTY5 DEC     25
THIRTY8 DEC     38
SIXTY   DEC     60
SIXK    DEC     6000
