# Counts the letters of a text, and finds the one that is most frequent.
        .data
text:   .asciiz "She sells sea shells by the sea shore; \"shells\", # she says: 7\t\n"
        .align 2
counts: .space 104
most:   .byte ' '
        .half 0
        .text
        .globl main
main:   la    $s0, text
        la    $s1, counts
read:   lbu   $t0, 0($s0)
        beqz  $t0, find
        ori   $t0, $t0, 0x20
        sub   $t0, $t0, 'a'
        bltz  $t0, other
        bge   $t0, 26, other
        sll   $t0, $t0, 2
        addu  $t0, $s1, $t0
        lw    $t1, ($t0)
        addi  $t1, 1
        sw    $t1, ($t0)
other:  addi  $s0, 1
        j     read
find:   li    $t2, 0
        li    $t3, 0
letter: sll   $t4, $t2, 2
        lw    $t5, counts($t4)
        ble   $t5, $t3, less
        move  $t3, $t5
        addi  $t6, $t2, 'a'
        sb    $t6, most
        sh    $t5, most + 2
less:   add   $t2, $t2, 1
        bne   $t2, 26, letter
        li    $v0, 10
        syscall
