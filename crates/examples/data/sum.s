# The sum of an array of eight words, and how many of them are negative.
#
# Each turn of the loop is five or six instructions. The unit lets the next turns in while the
# loads of this one are still out, so several loads are in flight at once.

        .word 12, -7, 100, 0x7f, -1, 3000000, 8, -250

        addiu $t0,$zero,0       # t0 is the address of the next word
        addiu $t1,$zero,32      # t1 is the address behind the last one
        addiu $v0,$zero,0       # v0 is the sum
        addiu $v1,$zero,0       # v1 counts the negative ones
next:   lw    $t2,0($t0)
        addu  $v0,$v0,$t2
        bgez  $t2,above         # a branch that none of the three predictors always gets right
        addiu $v1,$v1,1
above:  addiu $t0,$t0,4
        bne   $t0,$t1,next
        break
