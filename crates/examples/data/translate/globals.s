# Data in several sections, with reserved labels, the text between them, and main not first.
        .extern shared 8
        .data
one:    .word 1
        .text
twice:  addu  $v0, $a0, $a0
        jr    $ra
        .data
two:    .word 0
three:  .byte 3
        .text
        .globl main
main:   addi  $sp, $sp, -4
        sw    $ra, ($sp)
        lw    $a0, one
        jal   twice
        sw    $v0, two
        lb    $a0, three
        jal   twice
        sw    $v0, four
        la    $t0, shared
        sw    $v0, 4($t0)
        lw    $s0, shared+4
        lw    $ra, ($sp)
        addi  $sp, $sp, 4
        jr    $ra
        .data
        .align 4
four:   .word 0
