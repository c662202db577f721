loop:   adu     $t0,$t1,$t2
        bne     $t0,$t1,loop            # the label is there
        addiu   $t0,$t1,x
        j       nowhere
loop:   nop
        nop     nop
        bne     $t0,$zero,Loop
more: loop: jr  $32
        j       more
