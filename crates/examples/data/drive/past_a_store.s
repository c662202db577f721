# A store and a load of different bytes, and no instruction behind them.
        .word 0x80,9
        sb    $0,4($0)
        lb    $1,0($0)
