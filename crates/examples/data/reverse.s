# The four bytes of each of three words, in reverse order.
#
# Memory is little endian: the word 0x11223344 lies as the bytes 44 33 22 11. The bytes are read
# one by one and written one by one, and the words are then loaded whole: each load has to wait
# until the stores of single bytes before it have been written to memory.

        .word 0x11223344, 0xdeadbeef, 0x00000080

        addiu $s0,$zero,0       # the address of the word
        addiu $s1,$zero,12      # the address behind the last word
word:   lbu   $t0,0($s0)
        lbu   $t1,1($s0)
        lbu   $t2,2($s0)
        lbu   $t3,3($s0)
        sb    $t3,0($s0)
        sb    $t2,1($s0)
        sb    $t1,2($s0)
        sb    $t0,3($s0)
        lw    $t4,0($s0)        # the four stores before it make up this word
        xor   $v0,$v0,$t4       # v0 is the exclusive or of the reversed words
        addiu $s0,$s0,4
        bne   $s0,$s1,word
        break
