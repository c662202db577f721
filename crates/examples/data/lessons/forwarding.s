# Loads and stores: a load waits for a store whose address is not known yet.

        .word 8, 11, 22, 33

        lw    $t0,0($zero)      # 8, the address of the store
        addiu $t1,$zero,99
        sw    $t1,0($t0)        # writes the word at 8
        lw    $t2,8($zero)      # needs it
        lw    $t3,4($zero)      # does not
        addu  $t4,$t2,$t3       # 110
        break
