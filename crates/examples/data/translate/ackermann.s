# The function of Ackermann: many calls, and a deep stack.
        .text
        .globl main
main:   li    $a0, 2
        li    $a1, 4
        jal   A
        sw    $v0, result
        sub   $t0, $zero, $v0
        sw    $t0, result + 4
        li    $v0, 10
        syscall
A:      bgtz  $a0, rec
        addi  $v0, $a1, 1
        jr    $ra
rec:    addi  $sp, $sp, -8
        sw    $ra, 4($sp)
        sw    $a0, 0($sp)
        bgtz  $a1, both
        li    $a1, 1
        b     last
both:   addi  $a1, $a1, -1
        jal   A
        move  $a1, $v0
last:   lw    $a0, 0($sp)
        addi  $a0, $a0, -1
        jal   A
        lw    $ra, 4($sp)
        addi  $sp, $sp, 8
        jr    $ra
        .data
result: .word 0, 0
