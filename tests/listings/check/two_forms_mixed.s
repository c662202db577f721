nop
addiu $t0,$t1,4($t2)
