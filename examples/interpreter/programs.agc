# PROGRAMS: verbs 37 and 82, program 30, and what is computed anew for each display, in bank 07.

# Verb 37 waits for the program's two digits in NOUN.
VERB37  CA      TWO
        TS      INMODE
        CA      ONE
        TS      V37ON
        TCF     BEGINVN
ENTV37  TC      FREEDISP
        CA      NOUNREG
        EXTEND
        BZF     PROG00
        CS      THIRTY
        AD      NOUNREG
        EXTEND
        BZF     PROG30
        TCF     WRONGKEY
PROG00  TS      MODREG
        CA      ZERO
        TS      PDNOUN
        TS      PROWAIT
        TS      BURNSET     # a task of a burn that is in the Waitlist finds this
        TCF     DISPJOB

# Program 30: time of ignition, burn, and the planned orbit flash until PRO; then noun 40 counts down.
PROG30  CA      THIRTY
        TS      MODREG
        CA      ZERO
        TS      BURNSET
ASKTIG  CA      NEXTBURN
        TS      PROWAIT
        CA      THIRTY3
SHOWP30 TS      PDNOUN
        CA      SIXV
        TS      PDVERB
        TCF     DISPJOB
ASKBURN CA      NEXTPLAN
        TS      PROWAIT
        CA      EIGHTY1
        TCF     SHOWP30
ASKPLAN CA      ZERO
        TS      BURNOK
        INHINT
        CA      ONE
        TC      ASK
        RELINT
        CA      NEXTARM
        TS      PROWAIT
        CA      FORTY2
        TCF     SHOWP30
# PRO at noun 42. If the orbit cannot be computed, or the time is over, the key was wrong, and noun 33 or 81 comes again.
ARM     CCS     BURNOK
        TCF     +5
        CA      BIT7
        EXTEND
        WOR     LAMPS
        TCF     ASKBURN
        TC      LIVE
        EXTEND
        DCA     FROMTIG
        DXCH    MPAC
        TC      MAGN
        CCS     DSIGN
        TCF     TOOLATE
        NOOP
        CA      ONE
        TS      BURNSET
        EXTEND
        DCA     DVMAG
        DXCH    VGO
        CA      ZERO
        TS      L
        DXCH    VDONE
        CA      FORTY
        TS      PDNOUN
        CA      SIXTEEN
        TS      PDVERB
        TCF     DISPJOB
TOOLATE CA      BIT7
        EXTEND
        WOR     LAMPS
        TCF     ASKTIG

# Verb 82: the orbit at this moment, in noun 44.
VERB82  INHINT
        CA      ZERO
        TC      ASK
        RELINT
        CA      FORTY4
        TS      NOUNREG
        TS      MONNOUN
        TCF     DISPJOB

# LIVE: TOPERI, the time to the next perilune, and FROMTIG, the time from ignition.
LIVE    EXTEND
        QXCH    LIVEQ
LIVE1   EXTEND
        DCA     TPERI
        DXCH    MPAC
        EXTEND
        DCS     TIME2
        DAS     MPAC
        EXTEND
        DCA     MPAC
        DXCH    TOPERI
        TC      MAGN
        CCS     DSIGN
        TCF     LIVE2
        NOOP
        CA      PERCS
        AD      PERCS +1
        EXTEND
        BZF     LIVE2       # there is no orbit yet
        EXTEND              # it is over: the next one
        DCA     PERCS
        DAS     TPERI
        TCF     LIVE1
LIVE2   EXTEND
        DCS     TIG
        DXCH    FROMTIG
        EXTEND
        DCA     TIME2
        DAS     FROMTIG
        TC      LIVEQ

# IGNWATCH: from two seconds before ignition on its task is in the Waitlist.
IGNWATCH CS     ONE
        AD      BURNSET
        EXTEND
        BZF     +2
        TC      Q
        EXTEND
        QXCH    LIVEQ
        EXTEND
        DCA     FROMTIG
        DXCH    MPAC
        TC      MAGN
        CCS     DSIGN
        TCF     IGNNOW      # it is over already
        NOOP
        CA      MPAC
        EXTEND
        BZF     +2
        TC      LIVEQ
        CS      MPAC +1
        AD      TWOSECS
        EXTEND
        BZMF    IGNLATER
        CA      MPAC +1
        AD      LESS2
        EXTEND
        BZMF    IGNNOW
        CA      MPAC +1
        TCF     +2
IGNNOW  CA      TWO
        TS      MPAC
        CA      TWO
        TS      BURNSET
        EXTEND
        DCA     TIG
        DXCH    TBURN
        INHINT
        CA      MPAC
        TC      WAITLIST
        2CADR   IGNITE
        RELINT
IGNLATER TC     LIVEQ
NEXTBURN ADRES  ASKBURN
NEXTPLAN ADRES  ASKPLAN
NEXTARM ADRES   ARM
SIXV    DEC     6
THIRTY  DEC     30
THIRTY3 DEC     33
FORTY   DEC     40
FORTY2  DEC     42
FORTY4  DEC     44
EIGHTY1 DEC     81
TWOSECS DEC     200
