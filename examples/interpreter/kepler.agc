# KEPLER: the orbit's numbers. ORBJOB is the one job that uses the interpreter. A scale in brackets says in which unit a number is a fraction:
# [25] is 2 to the 25th power m, m/s or s, [0] is 1.
        BANK    5
# ORBJOB does what WANTS says, the last cell first.
ORBJOB  CA      ADRWORK
        TS      FIXLOC
        TS      PUSHLOC
ORBNEXT INHINT
        CA      FOUR
ORBLOOK TS      WANTNO
        INDEX   WANTNO
        CCS     WANTS
        TCF     ORBDO
        CCS     WANTNO
        TCF     ORBLOOK
        TS      ORBON       # nothing more
        TC      ENDOFJOB
ORBDO   CA      ZERO
        TS      OVFIND
        INDEX   WANTNO
        TS      WANTS
        RELINT
        INDEX   WANTNO
        TCF     ORBTAB
ORBTAB  TCF     DOORBIT
        TCF     DOPLAN
        TCF     DOBURN
        TCF     DOLOAD
        TCF     DOFIRST
ADRWORK ADRES   WORKAREA
# ORBWRONG: what was keyed is no orbit that this program can compute: OPR ERR.
ORBWRONG CA     BIT7
        EXTEND
        WOR     LAMPS
        TCF     ORBNEXT

DOFIRST TC      INTPRET
        VLOAD
                RSTART
        STOVL   RVEC
                VSTART
        STORE   VVEC
        EXIT
        CA      ONE
        TS      STATEOK
        EXTEND
        DCA     TIME2
        DXCH    TSTATE

# The orbit at this moment, for verb 82.
DOORBIT EXTEND
        DCA     TIME2
        DXCH    TARGET
        TC      INTPRET
        CALL
                ADVANCE
        CALL
                ELEMENTS
        DLOAD   DMP
                TFP
                TOCS
        DAD
                TSTATE
        STODL   TPERI
                CSPERIOD
        STODL   PERCS
                APO
        DMP     SRR
                TOMILES
                9D
        STODL   HAPO
                PERI
        DMP     SRR
                TOMILES
                9D
        STODL   HPERI
                TSTATE
        STODL   TIMEN
                RVEC
        DMP     SRR
                TOPLACE
                9D
        STODL   PLACEN
                RVEC +2
        DMP     SRR
                TOPLACE
                9D
        STODL   PLACEN +2
                RVEC +4
        DMP     SRR
                TOPLACE
                9D
        STODL   PLACEN +4
                VVEC
        DMP     SRR
                TOSPEED
                12D
        STODL   SPEEDN
                VVEC +2
        DMP     SRR
                TOSPEED
                12D
        STODL   SPEEDN +2
                VVEC +4
        DMP     SRR
                TOSPEED
                12D
        STORE   SPEEDN +4
        EXIT
        TCF     ORBNEXT

# Nouns 95, 96 and 38 become the state. If that is no orbit that can be computed, the old one stays.
DOLOAD  TC      INTPRET
        CALL
                KEEP
        DLOAD   SL
                PLACEN
                10D
        DMP
                OFPLACE
        STODL   RVEC
                PLACEN +2
        SL      DMP
                10D
                OFPLACE
        STODL   RVEC +2
                PLACEN +4
        SL      DMP
                10D
                OFPLACE
        STODL   RVEC +4
                SPEEDN
        SL      DMP
                13D
                OFSPEED
        STODL   VVEC
                SPEEDN +2
        SL      DMP
                13D
                OFSPEED
        STODL   VVEC +2
                SPEEDN +4
        SL      DMP
                13D
                OFSPEED
        STODL   VVEC +4
                TIMEN
        STORE   TSTATE
        BOV     CALL
                BADLOAD
                CHECK
        BMN     EXIT
                BADLOAD
        CA      ZERO
        TS      KEPT
        TCF     DOORBIT
BADLOAD CALL
                RESTORE
        EXIT
        TCF     ORBWRONG

# Program 30: the orbit as it is after the burn of nouns 33 and 81. The state stays.
DOPLAN  TC      INTPRET
        CALL
                KEEP
        DLOAD
                TIG
        STCALL  TARGET
                THEBURN
        BMN     DLOAD
                BADPLAN
                APO
        DMP     SRR
                TOMILES
                9D
        STODL   HAPO2
                PERI
        DMP     SRR
                TOMILES
                9D
        STCALL  HPERI2
                RESTORE
        EXIT
        CA      ONE
        TS      BURNOK
        TCF     ORBNEXT
BADPLAN CALL
                RESTORE
        EXIT
        TCF     ORBWRONG

# The burn, at its time. If the orbit could not be computed, there is none.
DOBURN  CA      ZERO
        TS      BURNSET
        TC      INTPRET
        CALL
                KEEP
        DLOAD
                TBURN
        STCALL  TARGET
                THEBURN
        BMN     DLOAD
                BADPLAN
                DVMAG
        STODL   VDONE
                NOUGHT
        STORE   VGO
        EXIT
        CA      ZERO
        TS      KEPT
        TCF     DOORBIT

# THEBURN: the state at TARGET, with the burn of noun 81, and its elements. MPAC is minus if they cannot be computed.
THEBURN STQ     CALL
                BURNQ
                ADVANCE
        BOV     DLOAD       # what came before does not count
                NOWBURN
                NOUGHT
NOWBURN DLOAD   SL
                BURNN
                13D
        DMP
                OFSPEED
        STODL   BURNV
                BURNN +2
        SL      DMP
                13D
                OFSPEED
        STODL   BURNV +2
                BURNN +4
        SL      DMP
                13D
                OFSPEED
        STORE   BURNV +4
        BOV     VLOAD
                BURNBAD
                BURNV
        ABVAL   DMP
                TOSPEED
        SRR
                12D
        STCALL  DVMAG
                BURN
        BOV     CALL
                BURNBAD
                CHECK
        GOTO
                BURNQ
BURNBAD DLOAD   GOTO
                LESSHALF
                BURNQ

# KEEP and RESTORE: the state is kept, and comes back. While KEPT is 1 a fresh start brings it back, too.
KEEP    VLOAD
                RVEC
        STOVL   RKEPT
                VVEC
        STODL   VKEPT
                TSTATE
        STORE   TKEPT
        SSP     RVQ
                KEPT
                1
RESTORE VLOAD
                RKEPT
        STOVL   RVEC
                VKEPT
        STODL   VVEC
                TKEPT
        STORE   TSTATE
        SSP     RVQ
                KEPT
                0

# CHECK: ELEMENTS, and MPAC minus if this is no ellipse that the program can compute: half its axis from 869 to 27000 km, e up to .9.
CHECK   STQ     VLOAD
                CHECKQ
                VVEC
        VSQ     PDVL
                RVEC
        ABVAL   DMP         # r v v [49]: below 2 mu
        DSU     BPL
                TWOMU
                BADORB
        CALL
                ELEMENTS
        DLOAD   DSU
                SMA
                SMAMOST
        BPL     DLOAD
                BADORB
                SMA
        DSU     BMN
                SMALEAST
                BADORB
        DLOAD   DMP
                SMA
                MU          # [68]
        PDVL    VXV
                RVEC
                VVEC        # [37]
        ABVAL   DSQ
        DDV
        DSU     BMN         # 1 - e e [6]
                ECCLEAST
                BADORB
        DLOAD   GOTO
                HALF
                CHECKQ
BADORB  DLOAD   GOTO
                LESSHALF
                CHECKQ

# ADVANCE: the state goes to the time TARGET, by less than a turn.
ADVANCE STQ     CALL
                ADVQ
                ELEMENTS
        DLOAD   DMPR
                PERIOD
                TOCS
        STODL   CSPERIOD
                TARGET
        DSU
                TSTATE
BEFORE  BPL     DAD
                BEHIND
                CSPERIOD
        GOTO
                BEFORE
BEHIND  DSU     BPL
                CSPERIOD
                BEHIND
        DAD     DMP
                CSPERIOD
                OFCS
        SL3R
        STCALL  DT
                KEPLER
        DLOAD
                TARGET
        STORE   TSTATE
        GOTO
                ADVQ

# ELEMENTS: what orbit it is. With X = r v v / mu, e cos E is X - 1, and a is r / (2 - X).
ELEMENTS VLOAD  ABVAL
                RVEC
        STOVL   RMAG
                VVEC
        VSQ     DMP
                RMAG
        SL      DDV
                5           # [44]
                MU          # [1]
        DSU     SL1
                HALF        # 1 [1]
        STORE   ECOS
        RTB
                LETTHEM
        SR1     BDSU
                HALF        # (2 - X) [1]
        PDDL    SR1
                RMAG        # [26]
        DDV
        STADR
        STORE   SMA
        DDV     SQRT
                MU
        STORE   SQAMU
        RTB
                LETTHEM
        DMP     DMP
                SMA         # 1 / n [16] s
                PIOVER4     # 2 pi [3]
        STODL   PERIOD
                SMA
        DMP     SQRT
                MU          # [34]
        PDVL    DOT
                RVEC
                VVEC          # [37]
        SL3     DDV
        STADR
        STORE   ESIN
        RTB
                LETTHEM
        DLOAD   PDDL
                NOUGHT
                ESIN
        PDDL    VDEF
                ECOS
        UNIT                # half of the cosine and of the sine, and in EANOM a zero
        STODL   COSHALF
                36D
        STORE   ECC
        RTB
                LETTHEM
        DSU     BMN
                CIRCLE
                ROUNDORB
        DLOAD   ABS
                COSHALF
        DSU
                SINE45
        BMN
                BYCOSINE
        DLOAD   ARCSIN      # near the perilune and the apolune the sine is the surer one
                SINHALF
        STODL   EANOM
                COSHALF
        BPL     DLOAD
                MEANANOM
                HALF
        DSU
                EANOM
        STORE   EANOM
        GOTO
                MEANANOM
ROUNDORB DLOAD
                NOUGHT      # a circle has no perilune: it is here
        STORE   SINHALF
        STORE   ECC
        STORE   EANOM
        STODL   ESIN
                ALLHALF
        STORE   COSHALF
        GOTO
                MEANANOM
BYCOSINE DLOAD  ARCCOS
                COSHALF
        SIGN
                ESIN
        STORE   EANOM
MEANANOM DLOAD  DMP
                ESIN
                ONEOV2PI
        RTB
                LETTHEM
        BDSU
                EANOM
        STORE   MANOM
        DCOMP   BPL
                PERITIME
        DAD     DAD
                HALF
                HALF
PERITIME DMP
                PERIOD
        STORE   TFP
        RTB
                LETTHEM
        DLOAD   SR1
                ECC
        PUSH    DAD
                HALF        # (1 + e) [1]
        DMP     DSU
                SMA         # [26]
                RMOON
        STODL   APO
        BDSU    DMP
                HALF        # (1 - e) [1]
                SMA
        DSU
                RMOON
        STORE   PERI
        RVQ

# KEPLER: the state DT later. Behind ELEMENTS.
KEPLER  VLOAD   UNIT
                RVEC          # [1]
        VXSC    PDVL
                COSHALF     # [2]
                VVEC
        VXSC    VXSC
                SQAMU       # [3]
                SINHALF     # [4]
        VSL2    BVSU
        UNIT
        STORE   PVEC
        RTB
                LETTHEM
        VLOAD   VXV
                RVEC
                VVEC
        UNIT    VXV
                PVEC
        UNIT
        STODL   QVEC
                DT
        RTB
                LETTHEM
        DDV     DAD
                PERIOD
                MANOM
        BPL     DAD
                MPLUS
                HALF
        DAD
                HALF
MPLUS   STODL   MANOM
                HALF        # from E = half a turn on the steps cannot go astray
        STORE   EANOM
        SSP     AXT,1
                S1
                1
                14D
KEPLOOP DLOAD   SINE
                EANOM       # [1]
        DMP     DMP
                ECC
                ONEOVPI     # e sin E in revolutions
        DAD     BDSU
                MANOM
                EANOM
        SR1     PDDL        # by how far Kepler's equation is missed [1]
                EANOM
        COSINE  DMP
                ECC
        BDSU
                HALF        # (1 - e cos E) [1]
        BDDV
        BDSU
                EANOM
        STORE   EANOM
        RTB
                LETTHEM
        TIX,1
                KEPLOOP
        DLOAD   COSINE
                EANOM
        PDDL    SR1
                ECC
        BDSU
        DMP     SL1
                SMA         # a (cos E - e) [25]
        VXSC    PDDL
                PVEC        # [26]
                ECC
        DSQ     SR2
        BDSU    SQRT
                QUARTER
        STODL   QROOT
                EANOM
        SINE    DMP
                QROOT       # [2]
        SL2     DMP
                SMA         # [25]
        VXSC    VAD
                QVEC        # [26]
        VSL1
        STODL   RNEW
                EANOM
        RTB
                LETTHEM
        SINE    DCOMP
        VXSC    PDDL
                PVEC        # [2]
                EANOM
        COSINE  DMP
                QROOT       # [2]
        SL1     VXSC
                QVEC        # [2]
        VAD     VSR2
        STADR
        STODL   VNEW        # [4]
                EANOM
        RTB
                LETTHEM
        COSINE  DMP
                ECC
        BDSU    V/SC
                HALF        # (1 - e cos E) [1]
                VNEW        # [3]
        STODL   VNEW
                QUARTER
        DDV     VXSC
                SQAMU       # [11]
                VNEW        # [14]
        VSL2
        STOVL   VVEC
                RNEW
        STORE   RVEC
        RVQ

# BURN: the speed changes by BURNV: forward, to the right and down, as seen from the craft that flies with its head up.
BURN    VLOAD   VXV
                RVEC
                VVEC
        UNIT
        STORE   QVEC        # half of the unit vector to the left
        VXV     UNIT
                RVEC
        VXSC    PDVL
                BURNV       # [13]
                QVEC
        VXSC    VCOMP
                BURNV +2
        VAD
        PDVL    UNIT
                RVEC
        VXSC
                BURNV +4
        BVSU    VSL1
        VAD
                VVEC
        STORE   VVEC
        RVQ

HALF    2DEC    .5
QUARTER 2DEC    .25
NOUGHT  2DEC    0
ALLHALF 2DEC    .4999999963
MU      2DEC    4.9027780 E12 B-43
PIOVER4 2DEC    .7853981634
ONEOV2PI 2DEC   .1591549431
ONEOVPI 2DEC    .3183098862
SINE45  2DEC    .3535533906
CIRCLE  2DEC    .00001
RMOON   2DEC    1738090 B-26 # the landing site's radius, m
TWOMU   2DEC    9.805556 E12 B-49
SMAMOST 2DEC    27 E6 B-25
SMALEAST 2DEC   869045 B-25
ECCLEAST 2DEC   .19 B-6
LESSHALF 2DEC   -.5
TOCS    2DEC    .1953125    # [19] s in hundredths of a second: 100 by 2 to the 9th power,
OFCS    2DEC    .64         # and back: 5.12 by 8
TOMILES 2DEC    .6911447084 # [26] m in 0.1 nautical miles: 2 to the 7th power by 185.2
TOPLACE 2DEC    .64         # [25] m in 0.1 km: 2 to the 6th power by 100,
OFPLACE 2DEC    .78125      # and back: 100 by 2 to the 7th power
TOSPEED 2DEC    .625        # [12] m/s in 0.1 m/s: 10 by 2 to the 4th power,
OFSPEED 2DEC    .8          # and back
RSTART  2DEC    1838090 B-25 # 100 km up, on a circle
        2DEC    0
        2DEC    0
VSTART  2DEC    0
        2DEC    1633.2 B-12
        2DEC    0
