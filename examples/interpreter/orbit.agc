# ORBIT: a craft around the Moon, with an Executive, a Waitlist, a keyboard and a display. ORBIT.md explains it. Verb 82 shows the orbit,
# nouns 95, 96 and 38 load another one, and program 30 counts down to a burn. The files below each begin with what they hold.
$cells.agc
$flight.agc

# ---- bank 02: vectors and start. The services of interrupts are in bank 06.
        SETLOC  4000
GOSTART INHINT              # power comes on, or verb 36
        CA      RUPTBB
        TS      BBANK
        TCF     POWERUP
        RESUME              # T6RUPT
        SETLOC  4010
        RESUME              # T5RUPT
        SETLOC  4014
        DXCH    ARUPT
        CA      RUPTBB
        XCH     BBANK
        TCF     T3RUPT
        DXCH    ARUPT
        CA      RUPTBB
        XCH     BBANK
        TCF     T4RUPT
        DXCH    ARUPT
        CA      RUPTBB
        XCH     BBANK
        TCF     KEYRUPT1
        SETLOC  4030
        RESUME              # KEYRUPT2
        SETLOC  4034
        RESUME              # UPRUPT
        SETLOC  4040
        RESUME              # DOWNRUPT
        SETLOC  4044
        RESUME              # RADARUPT
        SETLOC  4050
        RESUME              # RUPT10
        SETLOC  4054
RUPTEND EXTEND              # where each service ends
        QXCH    QRUPT
        CA      BBRUPT
        TS      BBANK
        DXCH    ARUPT
        RESUME
RUPTBB  BBCON   T3RUPT      # bank 06, and E3
$interpreter.agc
$executive.agc
$waitlist.agc
$keyboard.agc
$display.agc
$programs.agc
$kepler.agc
