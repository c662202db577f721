# The towers of Hanoi: counts the moves and keeps the last one.
        .data
moves:  .word 0
last:   .byte 0, 0
        .align 2
check:  .word 0
from:   .asciiz "Move a disk from "
to:     .asciiz " to "
nl:     .asciiz "\n"
        .text
        .globl main
main:
        addi $sp, $sp, -4
        sw   $ra, 0($sp)
        li   $a0, 6
        li   $a1, 'A'
        li   $a2, 'C'
        li   $a3, 'B'
        jal  hanoi
        lw   $ra, 0($sp)
        addi $sp, $sp, 4
        jr   $ra

hanoi:  beqz $a0, nothing
        addi $sp, $sp, -20
        sw   $ra, 16($sp)
        sw   $a3, 12($sp)
        sw   $a2, 8($sp)
        sw   $a1, 4($sp)
        sw   $a0, 0($sp)
        addi $a0, $a0, -1           # n-1 disks out of the way
        move $t0, $a2
        move $a2, $a3
        move $a3, $t0
        jal  hanoi
        lw   $a1, 4($sp)
        lw   $a2, 8($sp)
        jal  move_disk
        lw   $a0, 0($sp)            # n-1 disks on top
        addi $a0, $a0, -1
        lw   $a1, 12($sp)
        lw   $a2, 8($sp)
        lw   $a3, 4($sp)
        jal  hanoi
        lw   $ra, 16($sp)
        addi $sp, $sp, 20
nothing:
        jr   $ra

move_disk:
        lw   $t0, moves
        addi $t0, $t0, 1
        sw   $t0, moves
        sb   $a1, last
        sb   $a2, last+1
        lw   $t1, check
        mul  $t1, $t1, 5
        xor  $t1, $t1, $a1
        addu $t1, $t1, $a2
        sw   $t1, check
        la   $a0, from
        li   $v0, 4
        syscall
        move $a0, $a1
        li   $v0, 11
        syscall
        la   $a0, to
        li   $v0, 4
        syscall
        move $a0, $a2
        li   $v0, 11
        syscall
        la   $a0, nl
        li   $v0, 4
        syscall
        jr   $ra
