# A store of one byte, and a load of the word with that byte.
        .word 0x11223344
        sb    $0,1($0)
        lw    $2,0($0)
        break
