# From digits to a number and back, in two bases.
        .data
digits: .asciiz "-40961"
number: .word 0
decimal: .space 12
hex:    .space 9
letters: .asciiz "0123456789abcdef"
        .text
        .globl main
main:   la   $a0, digits
        jal  atoi
        sw   $v0, number
        move $a0, $v0
        la   $a1, decimal
        jal  itoa
        lw   $a0, number
        la   $a1, hex
        jal  to_hex
        la   $a0, hex
        li   $v0, 4
        syscall
        li   $v0, 10
        syscall

atoi:   li   $v0, 0
        li   $t2, 1
        lb   $t0, 0($a0)
        bne  $t0, '-', digit
        li   $t2, -1
        addi $a0, $a0, 1
digit:  lb   $t0, 0($a0)
        blt  $t0, '0', over
        bgt  $t0, '9', over
        sub  $t0, $t0, '0'
        mul  $v0, $v0, 10
        add  $v0, $v0, $t0
        addi $a0, $a0, 1
        j    digit
over:   mul  $v0, $v0, $t2
        jr   $ra

itoa:   bgez $a0, positive
        neg  $a0, $a0
        li   $t0, '-'
        sb   $t0, 0($a1)
        addi $a1, $a1, 1
positive:
        move $t1, $sp
next:   li   $t0, 10
        divu $a0, $t0
        mfhi $t2
        mflo $a0
        addi $t2, $t2, 48
        addi $sp, $sp, -4
        sw   $t2, 0($sp)
        bnez $a0, next
write:  lw   $t2, 0($sp)
        addi $sp, $sp, 4
        sb   $t2, 0($a1)
        addi $a1, $a1, 1
        bne  $sp, $t1, write
        sb   $zero, 0($a1)
        jr   $ra

to_hex: li   $t0, 8
nibble: rol  $a0, $a0, 4
        and  $t1, $a0, 0xf
        lb   $t2, letters($t1)
        sb   $t2, 0($a1)
        add  $a1, $a1, 1
        sub  $t0, $t0, 1
        bgt  $t0, 0, nibble
        sb   $zero, 0($a1)
        jr   $ra
