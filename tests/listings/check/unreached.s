main:   jal     f               # a return leads behind it
        break
        nop                     # the first of two
        nop
f:      beq     $t0,$t0,g       # always taken
        addiu   $t0,$t0,1
g:      bne     $t0,$t1,f
        jr      $ra
