# First program: it lights COMP ACTY, and waits.
# Make the lamp blink: "The language on one page", under the text, has all that you need.

LAMPS   EQUALS  11          # channel 11: lamps
        SETLOC  4000        # the computer starts here; there is room for four words, 4000 to 4003
        CA      ON          # A: the word of the lamp
        EXTEND              # WRITE is an extracode
        WRITE   LAMPS       # A to the lamps
WAIT    TCF     WAIT        # a program never stops: it waits. This is word 4003; a longer program goes on at 4060

# At an interrupt the computer goes to one of these places. Here each goes back at once.
        SETLOC  4004
        RESUME
        SETLOC  4010
        RESUME
        SETLOC  4014
        RESUME
        SETLOC  4020
        RESUME
        SETLOC  4024
        RESUME
        SETLOC  4030
        RESUME
        SETLOC  4034
        RESUME
        SETLOC  4040
        RESUME
        SETLOC  4044
        RESUME
        SETLOC  4050
        RESUME

        SETLOC  4060        # free from here on
ON      OCT     2           # bit 2: COMP ACTY
