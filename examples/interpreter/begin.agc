# BEGIN: vectors, start and the interpreter, for a program PROGRAM in the interpretive language
$cells.agc

# ---- bank 02: vectors and start
        SETLOC  4000
        TCF     START
        SETLOC  4004
        RESUME
        SETLOC  4010
        RESUME
        SETLOC  4014
        RESUME
        SETLOC  4020
        RESUME
        SETLOC  4024
        RESUME
        SETLOC  4030
        RESUME
        SETLOC  4034
        RESUME
        SETLOC  4040
        RESUME
        SETLOC  4044
        RESUME
        SETLOC  4050
        RESUME
        SETLOC  4054
START   CA      ADRWORK
        TS      FIXLOC
        TS      PUSHLOC
        CA      ZERO
        TS      OVFIND
        CA      BANKS
        TS      L
        CA      ADRPROG
        DXCH    Z           # to PROGRAM, with E3
ADRWORK ADRES   WORKAREA
ADRPROG ADRES   PROGRAM
BANKS   OCT     10003       # bank 04, and E3
$interpreter.agc
