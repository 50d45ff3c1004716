# Stopwatch: R1 counts seconds, and each key begins at 0 again.
# Try: count tenths of a second (DEC 16374 at SECOND), or stop at a key.

OUT0    EQUALS  10          # channel 10: the relays of the display
        SETLOC  0100
COUNT   ERASE               # the seconds
        SETLOC  4000        # the computer starts here
        TCF     BEGIN

        SETLOC  4004        # the vectors: but for two, an interrupt goes back at once
        RESUME              # T6RUPT
        SETLOC  4010
        RESUME              # T5RUPT
        SETLOC  4014
        RESUME              # T3RUPT
        SETLOC  4020
        TCF     STEP        # T4RUPT: TIME4 has overflowed
        SETLOC  4024
        TCF     TEN         # KEYRUPT1: a key
        SETLOC  4030
        RESUME              # KEYRUPT2
        SETLOC  4034
        RESUME              # UPRUPT
        SETLOC  4040
        RESUME              # DOWNRUPT
        SETLOC  4044
        RESUME              # RADARUPT
        SETLOC  4050
        RESUME              # RUPT10

        SETLOC  4060        # free from here on
BEGIN   INHINT              # no interrupt until RELINT
        CA      SECOND
        TS      TIME4       # TIME4 counts a hundred times a second up to 16384
        CA      DIGITS      # a 0
        EXTEND
        WRITE   OUT0
        RELINT
WAIT    TCF     WAIT        # the rest is done by interrupts

STEP    INCR    COUNT       # one more
        CA      COUNT
        AD      LESSTEN
        EXTEND
        BZF     TEN         # the count is ten
GOON    CA      SECOND
        TS      TIME4       # it overflows again
        INDEX   COUNT       # adds the count to the address of the next order
        CA      DIGITS      # its relay word
        EXTEND
        WRITE   OUT0
        RESUME              # back to the waiting

TEN     CA      NOUGHT
        TS      COUNT       # begins again
        TCF     GOON

SECOND  DEC     16284       # 100 steps before 16384: a second
LESSTEN DEC     -10
NOUGHT  DEC     0

DIGITS  OCT     30025       # relay row 6 with each digit on the right: 0
        OCT     30003       # 1
        OCT     30031       # 2
        OCT     30033       # 3
        OCT     30017       # 4
        OCT     30036       # 5
        OCT     30034       # 6
        OCT     30023       # 7
        OCT     30035       # 8
        OCT     30037       # 9
