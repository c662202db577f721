# Halfwords and words at any byte, pairs of words, and what loads extend.
        .data
bytes:  .byte 0x11, 0x82, 0x33, 0x84, 0x55, 0x86, 0x77, 0x88
halves: .half 0x8001, 0x7ffe, -2, 3
        .align 3
pair:   .word 0x01234567, 0x89abcdef
there:  .space 16
        .text
        .globl main
main:   la    $t9, bytes
        ulw   $t0, 1($t9)
        ulh   $t1, 3($t9)
        ulhu  $t2, 3($t9)
        ulw   $t3, bytes+2
        lb    $t4, 1($t9)
        lbu   $t5, 1($t9)
        lh    $t6, halves
        lhu   $t7, halves
        ld    $s0, pair
        sd    $s0, there
        usw   $t0, there+9
        ush   $t1, there+13
        la    $t8, halves
        lh    $s2, 4($t8)
        lhu   $s3, 4($t8)
        sh    $s2, 6($t8)
        li    $v0, 10
        syscall
