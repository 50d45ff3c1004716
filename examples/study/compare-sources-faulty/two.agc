        SETLOC  4100
        CA      0100
        TCF     WIAT
