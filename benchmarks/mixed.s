# Loads, stores, bytes and calls: an array is filled and summed, again and again.
        .space 4096
        ori   $sp,$0,4096
        addiu $20,$0,2000
again:  jal   fill
        jal   sum
        addiu $20,$20,-1
        bne   $20,$0,again
        break

fill:   or    $8,$0,$0
next:   addu  $9,$8,$20
        sw    $9,0($8)
        sb    $20,1($8)
        addiu $8,$8,4
        slti  $10,$8,2048
        bne   $10,$0,next
        jr    $ra

sum:    addiu $sp,$sp,-4
        sw    $ra,0($sp)
        or    $2,$0,$0
        or    $8,$0,$0
add:    lw    $9,0($8)
        addu  $2,$2,$9
        lbu   $11,2($8)
        xor   $2,$2,$11
        addiu $8,$8,4
        slti  $10,$8,2048
        bne   $10,$0,add
        lw    $ra,0($sp)
        addiu $sp,$sp,4
        jr    $ra
