# A branch is mispredicted: what is dispatched after it has to leave no trace.

        .word 3

        lw    $t0,0($zero)      # 3
        addiu $t1,$zero,3
        beq   $t0,$t1,right     # is taken
        addiu $t2,$zero,1       # the wrong path
        addiu $t1,$zero,2       # would overwrite $t1
        sw    $t2,0($zero)      # would overwrite the word at 0
right:  addu  $t3,$t1,$t0       # 6
        break
