# TRY: the beginning of a program; TUTORIAL.md has some. The line behind $try.agc is the first one in the interpretive language.
$begin.agc
        SETLOC  1400
ANSWER  ERASE   +5          # a scalar or a vector
OTHER   ERASE   +5

        SETLOC  04,2000
PROGRAM TC      INTPRET
