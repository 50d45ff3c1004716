# MAIN: the program that README.md reads word by word
$begin.agc

# ---- the program's results, in erasable bank 3
        SETLOC  1400
RANGE   ERASE   +1          # the distance to the site, in 1048576 m
RATE    ERASE   +1          # and how fast it grows, in 2048 m/s

# ---- bank 04: the program
        SETLOC  04,2000
PROGRAM TC      INTPRET
        VLOAD   VSU         # the way from the site to the craft
                RVEC
                SITE
        UNIT    DOT         # half of the speed along it; UNIT leaves its length in word 36D of the work area
                VVEC
        SL1
        STODL   RATE
                36D
        STORE   RANGE
        EXIT
STAY    TCF     STAY
RVEC    2DEC    350 E3 B-20 # where the craft is: 350, 410 and 30 km
        2DEC    410 E3 B-20
        2DEC    30 E3 B-20
SITE    2DEC    50 E3 B-20  # and the site: 50, 10 and 30 km
        2DEC    10 E3 B-20
        2DEC    30 E3 B-20
VVEC    2DEC    -1200 B-11  # the craft's speed: -1200, 500 and 90 m/s
        2DEC    500 B-11
        2DEC    90 B-11
