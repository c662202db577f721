# Stores that wait for their address or their data, and two loads behind them.
        .word 1,2,3
        addiu $1,$0,4
        addiu $2,$0,7
        sw    $2,0($0)
        sw    $0,0($1)
        lw    $3,0($0)
        lw    $4,8($0)
        break
