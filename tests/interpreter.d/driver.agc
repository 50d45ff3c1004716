# DRIVER: runs the programs of a list, one after another, and writes what each has left to channel 60
$cells.agc
CELLS   EQUALS  60          # the cells, one by one
BEGUN   EQUALS  55          # a program begins
SHOWN   EQUALS  56          # its cells have been written: its number
ENDED   EQUALS  57          # there are no more
        SETLOC  0360
NUMBER  ERASE               # the number of the program,
PLACE   ERASE               # and its CADR
HOWMANY ERASE
SHOWQ   ERASE
LOWER   EQUALS  0600
        SETLOC  1400
RESULT  ERASE   +27

        SETLOC  4000
        TCF     START
        SETLOC  4004
        RESUME
        SETLOC  4010
        RESUME
        SETLOC  4014
        RESUME
        SETLOC  4020
        RESUME
        SETLOC  4024
        RESUME
        SETLOC  4030
        RESUME
        SETLOC  4034
        RESUME
        SETLOC  4040
        RESUME
        SETLOC  4044
        RESUME
        SETLOC  4050
        RESUME
        SETLOC  4054
START   CA      THREE
        TS      BBANK
        TCF     DRIVE
DONE    CA      THREE
        TS      BBANK
        TCF     SHOWALL
$interpreter.agc

        SETLOC  00,2000
DRIVE   CA      ZERO
        TS      NUMBER
AGAIN   CA      ADRWORK
        TS      FIXLOC
        TS      PUSHLOC
        CA      ZERO
        TS      OVFIND
        TS      MODE
        CA      LENWORK
        TC      CLEAR
        ADRES   WORKAREA
        CA      LENRES
        TC      CLEAR
        ADRES   RESULT
        CA      LENLOW
        TC      CLEAR
        ADRES   LOWER
        CA      LENMPAC
        TC      CLEAR
        ADRES   MPAC
        CA      ADRWORK
        TS      PUSHLOC
        INDEX   NUMBER
        CA      LIST
        TS      PLACE
        EXTEND
        BZF     OVER
        CA      NUMBER
        EXTEND
        WRITE   BEGUN
        CA      PLACE
        MASK    HIGH5
        AD      THREE
        TS      L
        CA      PLACE
        MASK    LOW10
        AD      WINDOW
        DXCH    Z           # to that place and bank, and E3
SHOWALL CA      LENMPAC
        TC      SHOW
        ADRES   MPAC
        CA      ZERO
        TC      SHOW
        ADRES   OVFIND
        CA      LENWORK
        TC      SHOW
        ADRES   WORKAREA
        CA      LENRES
        TC      SHOW
        ADRES   RESULT
        CA      LENLOW
        TC      SHOW
        ADRES   LOWER
        CA      NUMBER
        EXTEND
        WRITE   SHOWN
        INCR    NUMBER
        TCF     AGAIN
OVER    EXTEND
        WRITE   ENDED
STAY    TCF     STAY

# CLEAR: clears A + 1 cells from the address on that is the word after the call. SHOW: writes them, the last one first.
CLEAR   TS      HOWMANY
        EXTEND
        QXCH    SHOWQ
CLEAR1  INDEX   SHOWQ
        CA      0
        AD      HOWMANY
        TS      PLACE
        CA      ZERO
        INDEX   PLACE
        TS      0
        CCS     HOWMANY
        TCF     +3
        INDEX   SHOWQ
        TC      1
        TS      HOWMANY
        TCF     CLEAR1
SHOW    TS      HOWMANY
        EXTEND
        QXCH    SHOWQ
SHOW1   INDEX   SHOWQ
        CA      0
        AD      HOWMANY
        INDEX   A
        CA      0
        EXTEND
        WRITE   CELLS
        CCS     HOWMANY
        TCF     +3
        INDEX   SHOWQ
        TC      1
        TS      HOWMANY
        TCF     SHOW1
LENWORK DEC     56
LENRES  DEC     23
LENLOW  DEC     11
LENMPAC DEC     10
ADRWORK ADRES   WORKAREA
        SETLOC  01,2000
        EXTEND              # for RTB and BOVB: MPAC is complemented
        DCS     MPAC
        DXCH    MPAC
        CS      MPAC +2
        TS      MPAC +2
        TC      Q
$programs.agc
