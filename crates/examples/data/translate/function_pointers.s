# Calls procedures by their addresses in a table.
        .data
table:  .word  plus, minus, times, over
left:   .word  84
right:  .word  5
result: .word  0:4
        .text
        .globl main
main:   addiu  $sp, $sp, -8
        sw     $ra, 4($sp)
        sw     $s0, 0($sp)
        li     $s0, 0
call:   sll    $t0, $s0, 2
        la     $t1, table
        addu   $t1, $t1, $t0
        lw     $t2, 0($t1)
        lw     $a0, left
        lw     $a1, right
        jalr   $t2
        sll    $t0, $s0, 2
        sw     $v0, result($t0)
        addiu  $s0, $s0, 1
        bne    $s0, 4, call
        la     $t9, minus
        jalr   $ra, $t9
        lw     $s0, 0($sp)
        lw     $ra, 4($sp)
        addiu  $sp, $sp, 8
        jr     $ra
plus:   add    $v0, $a0, $a1
        jr     $ra
minus:  sub    $v0, $a0, $a1
        jr     $ra
times:  mult   $a0, $a1
        mflo   $v0
        jr     $ra
over:   div    $a0, $a1
        mflo   $v0
        mfhi   $v1
        jr     $ra
