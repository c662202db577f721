# Loads behind stores that have not reached memory yet.
#
# A store writes memory when it retires, and no sooner. A load that is covered by one older store
# gets its bytes from that store; a load that is covered only in part waits until the store has
# retired; a load that overlaps no older store goes ahead of them. In all cases it gets what a
# machine would give it that does one instruction after the other.

        .word 0x01020304, 0x05060708, 0

        lui   $t0,0x8899
        ori   $t0,$t0,0xaabb    # 0x8899aabb
        sw    $t0,0($zero)
        lw    $t1,0($zero)      # the whole store: 0x8899aabb
        lh    $t2,2($zero)      # its upper half, with the sign: 0xffff8899
        lhu   $t3,0($zero)      # its lower half, without: 0x0000aabb
        lb    $t4,1($zero)      # one byte, with the sign: 0xffffffaa
        sb    $zero,1($zero)    # one byte is overwritten
        lw    $t5,0($zero)      # two stores make up this word: 0x889900bb
        lw    $t6,4($zero)      # no store overlaps it: 0x05060708
        sh    $t0,10($zero)
        lw    $t7,8($zero)      # half of it is stored, half of it is old: 0xaabb0000
        break
