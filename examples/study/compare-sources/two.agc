# The same page, as the second reader typed it
        SETLOC  4100
        CA      0100
        TS      0110
        AD      0103
        TS      0104
        INHINT
        CS      0105
        AD      0106
        TS      0107
        CA      0110
        TS      0111
        RELINT
        CS      0112
        RESUME
        SETLOC  4116
        OCT     54171
