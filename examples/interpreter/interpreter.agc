# INTERPRETER: all of it, in banks 02 and 03, behind what these hold. The cells come first, as in main.agc.
        BANK    2
$dispatch.agc
$stores.agc
$index.agc
$scalars.agc
        BANK    3
$vectors.agc
$functions.agc
$tables.agc
