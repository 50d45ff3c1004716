# LAYOUTS: LINES OF THE INTERPRETIVE LANGUAGE IN TABS, BLANKS AND NARROW COLUMNS, WITH MARKS, NAMES AND COMMENTS BETWEEN
# OPERANDS, IN BANKS 01, 02, 12, 25 AND 43. MADE FROM A SEED; ITS WORDS BY AN ENCODER THAT SHARES NOTHING WITH OURS.
X1		EQUALS	38D
X2		=	39D  # PI/4.0
S1		EQUALS	40D
S2		=	41D
QPRET		EQUALS	42D
UNIT		EQUALS	2001
SET		EQUALS	1722
TS		EQUALS	2751
		SETLOC	E0,0100
KEG3/.S		ERASE	+4		# TO 2(-3)
		SETLOC	E1,0430
KRV		ERASE	+5  # PI/4.0
		SETLOC	1025
ZX		ERASE	+2	#$INCLUDE.agc
4CMW49		ERASE	+5
		SETLOC	1437
Y'G		ERASE	+4  #  # ## #
		SETLOC	2012
T.PPG3		ERASE	+2
X9		ERASE	+5
DRQ5BPO		ERASE	+5
		SETLOC	E5,1405
YG-		ERASE	+1
QET7		ERASE		#LOAD IT
QOPVC+		ERASE	+1
		SETLOC	E6,1432
RA0		ERASE	+1
KJEO		ERASE	+1
		SETLOC	3411
ZT		ERASE	+4
PU8KF*A6		ERASE	+1
B*O0IO	EQUALS	KEG3/.S +2
J3*SU8Q	=	UNIT +6
OY	=	SET +6
L95QO33J	EQUALS	QPRET +2
M3IAIYHV	=	124D
A9T0	EQUALS	112D
.U5Q6U1	=	122D
W49ZHGH	=	47D
7'M3GX2	=	12D
PGYJ	=	52D
F3CCB75L	=	105D
J1ET	EQUALS	165D
		SETLOC	14616 #  E
  DEC 10723 # $INCLUDE.agc
QJ69+C		VSR8
 -7		BDSU*	SR*
			X9 +6,2
				14D,2
Q0Q3E		NORM
                        QET7  # PI/4.0
		DOT*	BONCLR
 IUP'K27,1	# LOAD IT
                        .U5Q6U1
		COUNT*	$$/INTER
                        KY +2
KY		SR1		STADR

 +3             STODL   ZT -2		# PI/4.0
  15		## ## #
			# STORE	Y
                DMPR    DMPR*
			HYFIKWY +2 #STORE X,1

		COUNT	21/INTER
				# ALONE
	/SC +2D,1
		BVSU	DOT
                        Q0Q3E	#PI/4.0
  KJEO +1
/SC		VXSC*
			QPRET +6D,1
                SLOAD		# E
			RA0 -2		# LOAD IT
VY0---E         ARCCOS #DLOAD VXV
                STADR

			# STORE	Y
                STODL*  QOPVC+
  IB+KB,2
   STORE	40		#$INCLUDE.agc
				# ALONE

 -4   STCALL	043
			061737  #STORE X,1

  VSR3    DDV*
			Q0Q3E,1
		EXIT
	2DEC* 0.608 E3 B-10*
RZTW30  OCT	10642		# DLOAD VXV
IUP'K27   OCT 22127		#  BYTES
                OCT     0
                OCT     0
                OCT     0		#DLOAD VXV
		OCT		0
                OCT     0		#  # ## #
                OCT     0 # E
  OCT 0
		COUNT*	$$/INTER
		OCT	0
# REMARK
 OCT	0
                OCT     0
		SETLOC	12,2010
                OCT     1	# TO 2(-3)
                SL*     SL2R		# LOAD IT
-10D			0 +4,2
                CALRB
   015
HYFIKWY         VXV     CGOTO
-10D                    ZX -1
		COUNT	21/INTER
				# ALONE
			DRQ5BPO -2
			# STORE	Y

UF4                     Q0Q3E +2
 STORE	X1 +6,1 #PI/4.0
		TLOAD	STADR		# TO 2(-3)
   X2 +6D
IB+KB		STORE	434,2		# $INCLUDE.agc
                DMP     STADR
			# STORE	Y
                        CMYND +10
   STOVL*	PU8KF*A6 +2
			CMYND,2
                PDDL    STADR
				25D	# $INCLUDE.agc
  STOVL    ZX +1
 OY
                STOVL*  025
	025,1	#  TO 2(-3)
  STOVL	PU8KF*A6 +10	# LOAD IT
                        54

		COUNT*	$$/INTER

-10D            PUSH    STADR
CMYND           STODL*  QPRET
                        4CMW49 +6D,1
		COUNT*	$$/INTER

                STORE   B*O0IO +6D,1	# STORE X,1
		DCOMP	VSQ
                ASIN    SETPD
-10D			6
   DMP* VXSC*
                        X1 +6,2
                        QET7 +2,1		#  DLOAD VXV
                EXIT # E
#
#
		ADRES	702		# DLOAD VXV
   BONINV CGOTO* # E
  PGYJ
 113214
		COUNT	21/INTER
			3712,2

  IB+KB +8D
		COUNT	21/INTER
                V/SC
				# ALONE
			CMYND
                DSU*    VSL6
			CMYND +2D,2
   TLOAD INCR,2
			PU8KF*A6
			58D
                STODL*  OY
 VY0---E,2 # E
		STOVL	J3*SU8Q +8D	#BYTES
   6426D	#  PI/4.0
  TAD
                        B*O0IO +6	#  PI/4.0
		STODL*	KRV
 1500,2
   VXM	PDDL*  #PI/4.0
+2                      IB+KB
                        PU8KF*A6,2  #TO 2(-3)
   STADR
                STOVL   TS +6D	#TO 2(-3)
			UNIT
                RTB     VSR4
			AC5IQR
                DLOAD*  INVERT

			KEG3/.S +2,2
	J1ET		#  $INCLUDE.agc
  COSINE #E

			# STORE	Y
	BDDV*
                        UF4,2
		EXIT
                DEC*    7040	#TO 2(-3)
		STOVL*	J3*SU8Q -2 # DLOAD VXV
                        PU8KF*A6 +6D,1  # LOAD IT
                VDEF		# BYTES
		VSR1	XCHX,2
			020
#
                SL4  #  BYTES
                BOV     SLOAD*  #  BYTES
                        HYFIKWY
			OY,1 #  DLOAD VXV

		SLR*	ABS  # LOAD IT
                        32,1
		BONCLR	BMN	# # ## #
			W49ZHGH
				YEX0D +10		# STORE X,1
                        KEG3/.S
		SR1	STADR
   STOVL*	ZX  #BYTES
 31D,2
	TLOAD    STADR
			/SC +8D
		COUNT	21/INTER

                STOVL   S1
   RA0 +6D
				# ALONE

			# STORE	Y
#
		SR3	BONSET
			# STORE	Y
#	DLOAD	X
  W49ZHGH # PI/4.0
#	DLOAD	X
  HYFIKWY #LOAD IT
  TLOAD
		COUNT	21/INTER
  B*O0IO -2D  # # ## #
                DAD     STADR #  STORE X,1
 25D	#  TO 2(-3)
                STODL   7
                BDSU    VSL2
                        35145
   RVQ
                EXIT
                OCT     61724		#  # ## #
                OCT     0
#
		OCT		0
		OCT		0

                OCT     0
		COUNT*	$$/INTER
+7		OCT	0		# STORE X,1
                OCT     0

		COUNT*	$$/INTER
 OCT 0 #BYTES
		OCT	0
   OCT 0
		OCT	0
		SBANK=	VT6I2P'5
		SETLOC	116010
		SBANK=	VT6I2P'5
                OCT     16772
                AXC,1   ITCQ
				# ALONE
		COUNT	21/INTER
                        -53D
# REMARK
YEX0D   SL2 VSL4
  BHIZ DDV*
SUKYR/9	JKK1R5F
			QOPVC+ +8D,2
	VSR	COSINE
			 1D	#STORE X,1
		COUNT	21/INTER
AE		TLOAD*	SR1R	# E

		COUNT	21/INTER
                        AE +5D,2
VT6I2P'5	DLOAD*	ROUND
			021,2
		DLOAD	VSL8
	YEX0D  #  PI/4.0
			# STORE	Y
 STOVL	L95QO33J
			43D

		SL2R	VSR6		# LOAD IT
  PDDL	#  $INCLUDE.agc
		CLRGO		INCR,1
		COUNT	21/INTER
	J1ET		#  LOAD IT
#
  SUKYR/9 +10
			S1 +2
                BOVB    AXT,2
#	DLOAD	X
                        VT6I2P'5
                        VY0---E	# TO 2(-3)
                DMPR*   VSL
                        UNIT,1 #TO 2(-3)


			27
                SSP*    VSL7
			TS,2  ## ## #
		COUNT*	$$/INTER
 -5                     176	# DLOAD VXV
  EXIT
## Page 21
		2DEC	640.57 E3 B-20
                STODL   27D  #  BYTES
 NORM*	LXC,2	# PI/4.0

	0,1
		COUNT	21/INTER
			   DRQ5BPO -2	# $INCLUDE.agc
  DSU DMP*
                        PU8KF*A6 +1D  # STORE X,1
		COUNT*	$$/INTER
			JKK1R5F +2D,1		# TO 2(-3)
                DAD     STADR
                        KEG3/.S -2D
		STOVL	X9 +8D
                VSL1
#	DLOAD	X

		VSL	VXM*	#  DLOAD VXV
 1D
 SUKYR/9 +8D,2  #  TO 2(-3)
		PDVL*	VPROJ*	#  BYTES
			UKV,1

                        S1,1
				# ALONE
                XAD,1   SR2R
                        023


			# STORE	Y
  STODL*    22
 TS,1		#PI/4.0
# REMARK
  VSL5 MXV*

                        B*O0IO,2
		STORE	B*O0IO
                BVSU*   VSL3		#LOAD IT
-10D			G2 +5,1 #  $INCLUDE.agc

                STOVL   6D
#	DLOAD	X
   SXA,2
 PU8KF*A6 +8D
		EXIT #BYTES
-10D  DEC    3192 E-5 B2		# STORE X,1
		DDV

		BDSU	BOFF #  # ## #

			044	#BYTES
 48D
  G2 +1D
                STOVL   OY +6D
	67347
                BDSU*   ITA
				# ALONE
				# ALONE
                        RA0 -2D,1
                        OY
   UNIT	STADR
		STORE	KJEO +1D
#	DLOAD	X
	BZE SIN		#  E
			UKV  #  TO 2(-3)
		SR1	CALL
   UKV
## Page 738
   PDDL STADR #TO 2(-3)
		STOVL		01141 #  STORE X,1
   UKV +10
                VSL*    SL1R
                        0,1

				# ALONE
   SIGN	BOFINV
                        TS
 245
                        VT6I2P'5	#  TO 2(-3)
   LXA,1  #STORE X,1
			DRQ5BPO
## Page 509
                STODL   SET +6D
                        SET -2D
                DMP     STADR
                        X2 -1
                STODL   TS -1
                UNIT    SET

			A9T0		#  E
 EXIT #$INCLUDE.agc
                DEC*    -11757
		OCT	0
		OCT	0
		COUNT	21/INTER
                OCT     0		#  TO 2(-3)
 OCT	0
## Page 635
#
                OCT     0  #  # ## #
		OCT	0
                OCT     0
  OCT	0		# $INCLUDE.agc
		COUNT	21/INTER


                OCT     0
                OCT     0
		SETLOC	62130 #TO 2(-3)
		ADRES		314
JKK1R5F		CADR	45513
  XSU,1	CLEAR
			ZT +10	#E
			.U5Q6U1	# $INCLUDE.agc
				# ALONE
#	DLOAD	X
			# STORE	Y
		BPL	CGOTO*
# REMARK
-10D                    JKK1R5F
                        X1 +2D,1
			SUKYR/9	## ## #
 SXA,1    SIGN #TO 2(-3)

                        ZT +2  #LOAD IT


   YG-	#  PI/4.0
## Page 461
		SSP
		COUNT	21/INTER
                        15 # STORE X,1
                        -73
                VCOMP   BOFSET
  7'M3GX2
			AE +2D
		STCALL	23 # # ## #
			AE


                STORE   L95QO33J -1  #  $INCLUDE.agc
                VSR7    CCALL
			TS +10
			KY
   DDV* # BYTES
                        JKK1R5F,1
                PUSH    STADR
				# ALONE
				# ALONE
# REMARK
		STORE	X2  #STORE X,1
                SL1     ITA
                        TS +6
AC5IQR VAD
                SL3 # # ## #
G2 COS
## Page 148
UKV             EXIT
		OCT	56076
		VXV	STADR
		STODL*	KRV -2
 +12D			G2,1  # # ## #
				# ALONE
		LXA,2
                        YG- -2D  #  LOAD IT
		SR2		DAD #  $INCLUDE.agc
                BOFCLR	#  STORE X,1
                        J1ET
   10202D		#E
                STORE   1278D	# LOAD IT
                VXV     DSU*
                        T.PPG3 +8D

-10D			VT6I2P'5,2
#
                SSP     TIX,2		#  $INCLUDE.agc
			S2 # LOAD IT
                        -14		#  E
				# ALONE

			SUKYR/9 +2	# # ## #
		INVGO
 W49ZHGH  # STORE X,1
                        41274  #  # ## #
 STORE    PU8KF*A6 -1D
## Page 415
		VXSC*		#  $INCLUDE.agc
                        TS -1D,1
		DMP	STADR
#	DLOAD	X
   STODL 4CMW49 +6D #$INCLUDE.agc
  VXSC STQ
                        0620
			26		#BYTES
		DSQ  # BYTES
# REMARK
		SRR	VAD*
                        5 #TO 2(-3)
                        YEX0D +5D,2		#  DLOAD VXV
		EXIT  #  E
	DEC    54.769 B-6
	VSU* XAD,1		## ## #
  UKV +2D,2 # E
                        03
                XSU,2   VXV*		#E
                        X2
			41D,2	# DLOAD VXV
		COUNT	21/INTER
                XAD,2   SINE
  QOPVC+ +2D
                SLR*    SR3R
 20,1	#STORE X,1
                SQRT	# TO 2(-3)
		SR	SR4R		#$INCLUDE.agc
			14D #  LOAD IT
   STADR
		STORE		B*O0IO +6  #BYTES
                TIX,1   ABVAL
			JKK1R5F +2D
	SL4R    AXC,2
			-52D
		COUNT*	$$/INTER
+1		CALL
                        AE +1
#
		TAD*	VPROJ	#E
 3D,2
		AXT,1	PDVL
                        -025	# LOAD IT
                        025
                ACOS    INVGO

  246
			X2 +10
	VXSC    STADR	#TO 2(-3)
		STOVL	UNIT +6D
                EXIT #  $INCLUDE.agc
                OCT     01626	#LOAD IT
#	DLOAD	X
                OCT     0		# BYTES
                OCT     0 #$INCLUDE.agc
#	DLOAD	X
# REMARK
		OCT	0		#  TO 2(-3)
                OCT     0 #  $INCLUDE.agc
  OCT	0  #  E
                OCT     0
                OCT     0
                OCT     0 #  $INCLUDE.agc
 OCT    0	#  BYTES
                OCT     0 #  # ## #
## Page 623
                OCT     0
		SETLOC	01,2000

#
		DEC	-7023	#TO 2(-3)
PIGN2M.F  2DEC*    18250 E-4 B-1*
   STORE QET7,1
-10D            BOFSET  CCALL*
  J1ET
                        UNIT
                        14,2		#  STORE X,1
                        SUKYR/9
		COUNT	21/INTER
                SLR     V/SC*
                        5
	RZTW30,2 # TO 2(-3)
                VLOAD*
			02060,2
		COUNT	21/INTER
                SETGO   CLRGO  #LOAD IT
 +12D                   .U5Q6U1	## ## #

			IB+KB +2
   35 #  $INCLUDE.agc
  025325


		COUNT	21/INTER
 DAD STADR	#PI/4.0

## Page 949
		STCALL	14
  RZTW30
 STOVL* S1 +1 # # ## #
#
			51,2	#  TO 2(-3)
		STCALL	QOPVC+		# PI/4.0
			23886D
GW+L4   XCHX,1	BON
				X9 -2D
				140
                        Q0Q3E
		VSR5	ARCSIN

                VSL1    MXV*		# BYTES
                        03007,1  #TO 2(-3)
		SL3R	SRR		# $INCLUDE.agc
   16		# BYTES
LVG8I DCOMP    SRR*
 0 +16,2	#TO 2(-3)
RKJ.BCO         VLOAD   PUSH
		EXIT
   ADRES    4
                STODL   4CMW49 -1
                        X2 +2
                ABS     SRR
 12
ANLKH  STORE	QET7 -2D,2
	VSR2		#BYTES
NPP	VSR* SLR #  E
 +12D                   0,2		# E
Q5HT''2
			0
		COUNT	21/INTER
C3I		DAD	STADR
                        QET7
 -6	STORE    2323,1
		VSU	SR3
		DMP	STADR
                        23D	#  STORE X,1

		STOVL	PU8KF*A6 +1D
#	DLOAD	X

		VXSC	STADR	#TO 2(-3)
		STODL*	KEG3/.S
			4CMW49,2	# BYTES
	SLR    SL
	031	# BYTES
                        05
# REMARK

 SL1	LXC,1
			   S1 -2D
 SR4 BOFINV	# STORE X,1
 J1ET	#  BYTES
			# STORE	Y

                        HYFIKWY +2
  STQ
                        012
		MXV	BDDV
 B*O0IO -1D #  PI/4.0

  26773 #BYTES
                EXIT
+7		OCT	21147
                OCT     0  #  BYTES
                OCT     0
                OCT     0		#$INCLUDE.agc
	OCT    0
                OCT     0		#TO 2(-3)
	OCT 0  # DLOAD VXV
		OCT	0
		OCT	0
		OCT	0  #$INCLUDE.agc
		OCT	0		#  # ## #
