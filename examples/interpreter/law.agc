# LAW: the landing's step of the state and its guidance law (examples/descent), in the interpretive language and in basic code, for the
# same state. README.md compares them. X is forward of the site, Z up; lengths [14] m, speeds [8] m/s, times [8] s, accelerations [4] m/s/s.
$try.agc
        VLOAD
                RSTART
        STOVL   RV
                VSTART
        STORE   VV
        EXIT
# ---- the step of a second and the law in the interpretive language: vectors of three parts, 28 digits
BEGUN   TC      INTPRET
        VLOAD   VXSC        # half of what the accelerometers have counted
                DELV
                PULSE
        VSL1    VAD         # and of gravity
                HALFFALL
        PUSH    VAD
                VV
        STORE   VV          # the speed in the middle of the second
        VXSC    VAD
                SECOND6
                RV
        STOVL   RV
                VV
        VAD     STADR
        STORE   VV
        EXIT
STEPPED TC      INTPRET
        DLOAD   DAD         # time to go: 3 way / (speed + 2 target speed)
                VV
                TWOVT
        PDDL    DSU
                RTARGET
                RV
        DDV
        DMP
                THREEBY4
        STORE   TGO
        VLOAD   VSU         # 6/T (2 way/T - (target speed + speed))
                RTARGET
                RV
        V/SC    VSR1
                TGO
        VSU     VSU
                VTARGET
                VV
        V/SC    VXSC
                TGO
                SIXBY16
        STORE   ACCEL
        EXIT
LAWED   EXTEND
        DCA     RSTART
        DXCH    BSTATE
        EXTEND
        DCA     VSTART
        DXCH    BSTATE +2
        EXTEND
        DCA     RSTART +4
        DXCH    BSTATE +4
        EXTEND
        DCA     VSTART +4
        DXCH    BSTATE +6
# ---- the same in basic code, as in the landing: two axes, words of 14 digits, two for place and speed
BASIC   CA      PULSESX
        DOUBLE
        EXTEND
        MP      PULSE1
        DXCH    HALFGAIN
        CA      ZERO
        TC      STEP
        CA      PULSESZ
        DOUBLE
        EXTEND
        MP      PULSE1
        DXCH    HALFGAIN
        CS      STEP256
        EXTEND
        MP      FALL
        DAS     HALFGAIN
        CA      FOUR
        TC      STEP
BSTEPPED CA     BSTATE +2
        AD      TWOVT1
        TS      DIVISOR
        EXTEND
        DCS     BSTATE
        DXCH    WAYTOGO
        TC      DIVS
        EXTEND
        MP      THREEQ
        TS      LAWT
        CA      FOUR
        TC      LAW
        CA      ZERO
        TC      LAW
STAY    TCF     STAY

# STEP: a step of STEP256 on the axis in A. HALFGAIN has half of the speed that it brings.
STEP    TS      BLK
        EXTEND
        DCA     HALFGAIN
        INDEX   BLK
        DAS     BSTATE +2
        INDEX   BLK
        CA      BSTATE +3
        EXTEND
        MP      STEP256
        TS      L
        CA      ZERO
        INDEX   BLK
        DAS     BSTATE
        INDEX   BLK
        CA      BSTATE +2
        EXTEND
        MP      STEP256
        INDEX   BLK
        DAS     BSTATE
        EXTEND
        DCA     HALFGAIN
        INDEX   BLK
        DAS     BSTATE +2
        TC      Q
# LAW: for the axis in A. T is LAWT.
LAW     EXTEND
        QXCH    LAWQ
        TS      BLK
        EXTEND
        INDEX   BLK
        DCS     BSTATE
        DXCH    WAYTOGO
        INDEX   BLK
        CA      TARGET1
        ADS     WAYTOGO
        CA      LAWT
        TS      DIVISOR
        TC      DIVS        # by T, in 1/256 m/s
        EXTEND
        MP      BIT14
        EXTEND
        INDEX   BLK
        SU      BSTATE +2
        INDEX   BLK
        AD      TARGET1 +1
        ZL
        DXCH    WAYTOGO
        TC      DIVS        # the same by T, in 2 to the -14 m/s/s
        EXTEND
        MP      SIXBY16W
        INDEX   BLK
        TS      BACCEL
        TC      LAWQ
# DIVS: A = WAYTOGO by DIVISOR, which is above one; if the quotient has no place in a word, the greatest of its sign.
DIVS    CCS     WAYTOGO
        TCF     +3
        TCF     +2
        TCF     +1
        EXTEND
        SU      DIVISOR
        AD      TWO
        EXTEND
        BZMF    DIVGO
        CCS     WAYTOGO
        CA      POSMAX
        TC      Q
        CS      POSMAX
        TC      Q
DIVGO   EXTEND
        DCA     WAYTOGO
        EXTEND
        DV      DIVISOR
        TC      Q
LAWEND  DEC     0
THREEQ  DEC     12288       # 3/4
SIXBY16W DEC    6144
PULSE1  DEC     .936
STEP256 DEC     256
FALL    DEC     .2025
PULSESX DEC     10
PULSESZ DEC     20
TWOVT1  DEC     256
TARGET1 DEC     0
        DEC     -128
        DEC     0
        DEC     0
        DEC     30
        DEC     128
DELV    2DEC    10 B-14     # ten pulses forward, twenty up
        2DEC    0
        2DEC    20 B-14
RTARGET 2DEC    0           # low gate: 30 m up, at 2 m/s forward and down
        2DEC    0
        2DEC    30 B-14
VTARGET 2DEC    2 B-8
        2DEC    0
        2DEC    -2 B-8
RSTART  2DEC    -7500 B-14  # 7500 m before the site, 2300 m up; 150 m/s forward, 45 m/s down
        2DEC    0
        2DEC    2300 B-14
VSTART  2DEC    150 B-8
        2DEC    0
        2DEC    -45 B-8
HALFFALL 2DEC   0
        2DEC    0
        2DEC    -.81 B-8
PULSE   2DEC    .936        # half of 0.0585 m/s, by 2 to the 5th power
SECOND6 2DEC    1 B-6
TWOVT   2DEC    4 B-8
THREEBY4 2DEC   .75
SIXBY16 2DEC    .375

        SETLOC  1420
RV      ERASE   +5          # place,
VV      ERASE   +5          # speed,
TGO     ERASE   +1          # time to go,
ACCEL   ERASE   +5          # and the acceleration that the law wants
BSTATE  ERASE   +7          # in basic code: place (1 m) and speed (1/64 m/s) forward; up
LAWT    ERASE
BACCEL  ERASE   +4          # forward, and four words on up, 1/1024 m/s/s
HALFGAIN ERASE  +1
WAYTOGO ERASE   +1
DIVISOR ERASE
BLK     ERASE
LAWQ    ERASE
