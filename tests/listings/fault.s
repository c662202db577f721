# All is well with each line by itself, but there is no line that `away` names. So the fault is found last, when
# everything that a listing takes memory for has been taken.
        .word 1, 2, 3, 4
        .space 4096
first:  lw    $t0,0($zero)
second: addiu $t0,$t0,-1
        bne   $t0,$zero,second
        j     away
