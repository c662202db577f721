# A load from an address that is no multiple of 4 stops the run, and it stops precisely: all that
# stands before the load has happened, and nothing behind it has.
#
# The load waits for a chain of three, so t3 and the last store may be executed before the load
# turns out wrong, as with `./ruu chart examples/unaligned.s --seed 1`. Neither is in the report.

        .word 1, 2, 3, 4

        addiu $t0,$zero,7
        sw    $t0,0($zero)      # older than the load: it is in memory
        addiu $t1,$t0,-1        # 6
        subu  $t1,$t1,$t0       # -1
        addu  $t1,$t1,$t0       # 6 again
        lw    $t2,0($t1)        # stops: `unaligned`, with the pc of this instruction
        addiu $t3,$zero,99      # younger than the load: t3 stays 0
        sw    $t3,4($zero)      # younger than the load: memory keeps 2
        break
