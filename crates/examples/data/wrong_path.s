# A branch that is predicted wrongly, with a fault on the wrong path.
#
# The branch below is taken, but it waits for a chain of additions. Meanwhile the unit goes on where
# the predictor says: behind the branch, into a load that reaches past the end of data memory and an
# addition that overflows. When the branch is known, all of that is squashed, and no fault is seen.
# `bimod` learns a branch when its station is let again: with 16 stations before the third round.

        .space 4

        lui   $t9,0x7fff
        ori   $t9,$t9,0xffff    # the greatest signed number
        addiu $s0,$zero,3       # three rounds
round:  addiu $t0,$zero,1
        addu  $t0,$t0,$t0
        addu  $t0,$t0,$t0
        addu  $t0,$t0,$t0       # 8, after a chain of additions
        bgtz  $t0,over          # always taken
        lw    $t1,4($zero)      # `range`, on the wrong path alone
        add   $t2,$t9,$t9       # `overflow`, on the wrong path alone
        sw    $t9,0($zero)      # a store on the wrong path never reaches memory
over:   addu  $v0,$v0,$t0
        addiu $s0,$s0,-1
        bgtz  $s0,round
        break                   # v0 is 24
