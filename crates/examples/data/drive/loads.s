# Three loads, for a load/store queue of two.
        .space 4
        lw    $1,0($0)
        lw    $2,0($0)
        lw    $3,0($0)
        break
