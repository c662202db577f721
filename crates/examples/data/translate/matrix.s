# C = A * B for matrices of 3 rows and 3 columns, and the transpose of C.
        .data
        .align 2
A:      .word 1, 2, 3
        .word 4, 5, 6
        .word 7, 8, 9
B:      .word 9, 8, 7, 6, 5, 4, 3, 2, 1
C:      .space 36
T:      .space 36
size:   .word 3
        .text
        .globl main
main:   lw    $s3, size
        li    $s0, 0
row:    li    $s1, 0
column: li    $s2, 0
        li    $t9, 0
term:   mul   $t0, $s0, $s3
        add   $t0, $t0, $s2
        sll   $t0, $t0, 2
        lw    $t1, A($t0)
        mul   $t2, $s2, $s3
        add   $t2, $t2, $s1
        sll   $t2, $t2, 2
        lw    $t3, B($t2)
        mul   $t4, $t1, $t3
        add   $t9, $t9, $t4
        addi  $s2, $s2, 1
        blt   $s2, $s3, term
        mul   $t5, $s0, $s3
        add   $t5, $t5, $s1
        sll   $t5, $t5, 2
        sw    $t9, C($t5)
        mul   $t6, $s1, $s3
        add   $t6, $t6, $s0
        sll   $t6, $t6, 2
        sw    $t9, T($t6)
        addi  $s1, $s1, 1
        blt   $s1, $s3, column
        addi  $s0, $s0, 1
        blt   $s0, $s3, row
        li    $v0, 10
        syscall
