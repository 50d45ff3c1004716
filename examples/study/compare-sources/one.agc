# A page of a listing, as the first reader typed it
        SETLOC  4100
# The cells are 0100 to 0112.
        CA      0100
        TS      0101
        CA      0102
        AD      0103
        TS      0104
        INHINT
        CS      0105
        AD      0106
        TS      0107
        CA      0110
        TS      0111
        RELINT
        CS      0112
        RESUME
        SETLOC  4116
        OCT     54171
