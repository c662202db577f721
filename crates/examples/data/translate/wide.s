# Sums, differences and products of 64 bits in pairs of words.
        .data
x:      .word 0xffffffff, 0x00000001
y:      .word 0x00000002, 0x7fffffff
sum:    .space 8
diff:   .space 8
prod:   .space 8
signed: .space 8
        .text
        .globl main
main:   lw    $t0, x
        lw    $t1, x+4
        la    $t9, y
        lw    $t2, 0($t9)
        lw    $t3, 4($t9)
        addu  $t4, $t0, $t2
        sltu  $t6, $t4, $t0             # carry
        addu  $t5, $t1, $t3
        addu  $t5, $t5, $t6
        sw    $t4, sum
        sw    $t5, sum+4
        subu  $t4, $t0, $t2
        sltu  $t6, $t0, $t2             # borrow
        subu  $t5, $t1, $t3
        subu  $t5, $t5, $t6
        sw    $t4, diff
        sw    $t5, diff+4
        multu $t0, $t3
        mflo  $t4
        mfhi  $t5
        sw    $t4, prod
        sw    $t5, prod+4
        mult  $t0, $t3
        mfhi  $t5
        mflo  $t4
        sw    $t4, signed
        sw    $t5, signed+4
        li    $v0, 10
        syscall
