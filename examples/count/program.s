; Counts to 3.
loop:   add r0, 1
        jlt r0, 3, loop
        exit
