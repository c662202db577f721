# The cipher of Caesar, there and back, in place.
        .data
plain:  .asciiz "Attack at dawn, not at 6:00! (\"tomorrow\")"
key:    .byte 3
done:   .asciiz "\n"
        .text
        .globl main
main:   la    $a0, plain
        lb    $a1, key
        jal   cipher
        la    $a0, plain
        li    $v0, 4
        syscall
        la    $a0, done
        syscall                     # $v0 is still 4
        li    $v0, 10
        syscall
cipher:
        lbu   $t0, 0($a0)
        beq   $t0, $zero, out
        blt   $t0, 'A', keep
        bgt   $t0, 'z', keep
        ble   $t0, 'Z', upper
        blt   $t0, 'a', keep
        li    $t1, 'a'
        j     rotate
upper:  li    $t1, 'A'
rotate: sub   $t0, $t0, $t1
        add   $t0, $t0, $a1
        rem   $t0, $t0, 26
        add   $t0, $t0, $t1
        sb    $t0, 0($a0)
keep:   addi  $a0, $a0, 1
        b     cipher
out:    jr    $ra
