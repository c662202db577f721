# A small calculator that finds its operations through a table of addresses: `jalr` goes to an
# address that was loaded from memory.
#
# Instruction i stands at 0x00400000 + 4i. The table is four words of data memory; behind it stand
# the steps, each the number of an operation and an operand. v0 is the accumulator.

        .word 0x00400030, 0x00400038, 0x00400040, 0x00400048    # add, take, twice, end
        .word 0, 40,  2, 0,  1, 13,  2, 0,  0, 7,  3, 0

        addiu $s0,$zero,16      # 0x00400000: the address of the next step
        addiu $s1,$zero,0
step:   lw    $t0,0($s0)        # 0x00400008: which operation
        lw    $a0,4($s0)        # 0x0040000c: and its operand
        addiu $s0,$s0,8         # 0x00400010
        sll   $t0,$t0,2         # 0x00400014: a word has four bytes
        lw    $t1,0($t0)        # 0x00400018: the address of the operation
        addiu $s1,$s1,1         # 0x0040001c: count the steps
        jalr  $t2,$t1           # 0x00400020: to the operation; t2 is 0x00400024
        j     step              # 0x00400024
        nop                     # 0x00400028
        nop                     # 0x0040002c
        addu  $v0,$v0,$a0       # 0x00400030: add
        jr    $t2               # 0x00400034
        subu  $v0,$v0,$a0       # 0x00400038: take
        jr    $t2               # 0x0040003c
        addu  $v0,$v0,$v0       # 0x00400040: twice
        jr    $t2               # 0x00400044
        break                   # 0x00400048: end, with ((40 * 2) - 13) * 2 + 7 = 141
