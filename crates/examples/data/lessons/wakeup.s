# RAW, WAR and WAW: which instructions have to wait, and for whom.

        .word 7

        lw    $t0,0($zero)      # 7
        addu  $t1,$t0,$t0       # RAW: reads the 7 that the load gives
        addiu $t0,$zero,5       # WAR with the addition above it, WAW with the load
        addu  $t2,$t0,$t0       # RAW: reads the 5, and not the 7
        mult  $t2,$t1
        mflo  $t3
        break
