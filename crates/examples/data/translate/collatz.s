# The longest way to 1 of all numbers below 30: halve the even ones, 3n+1 of the odd ones.
        .data
best:   .word 0
steps:  .word 0
all:    .half 0:30
        .text
        .globl main
main:
        li      $s0, 1
number:
        bge     $s0, 30, end
        move    $t0, $s0
        li      $t1, 0
step:
        beq     $t0, 1, reached
        addi    $t1, $t1, 1
        andi    $t2, $t0, 1
        bnez    $t2, odd
        srl     $t0, $t0, 1
        b       step
odd:
        mulo    $t0, $t0, 3
        addi    $t0, $t0, 1
        b       step
reached:
        sll     $t3, $s0, 1
        sh      $t1, all($t3)
        lw      $t4, steps
        bleu    $t1, $t4, not_longer
        sw      $t1, steps
        sw      $s0, best
not_longer:
        addi    $s0, $s0, 1
        b       number
end:    li      $v0, 10
        syscall
