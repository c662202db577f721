# strcpy, strcmp and strcat, each a procedure.
        .data
first:  .asciiz "hello"
second: .asciiz "help"
copy:   .space 16
both:   .space 20
order:  .word 0, 0, 0
        .text
        .globl main
main:   la   $a0, copy
        la   $a1, first
        jal  strcpy
        la   $a0, first
        la   $a1, second
        jal  strcmp
        sw   $v0, order
        la   $a0, second
        la   $a1, first
        jal  strcmp
        sw   $v0, order+4
        la   $a0, copy
        la   $a1, first
        jal  strcmp
        la   $t0, order
        sw   $v0, 8($t0)
        la   $a0, both
        la   $a1, first
        jal  strcpy
        la   $a0, both
        la   $a1, second
        jal  strcat
        la   $a0, both
        li   $v0, 4
        syscall
        li   $v0, 10
        syscall

strcpy: add  $t0, $zero, $zero
L1:     add  $t1, $t0, $a1
        lbu  $t2, 0($t1)
        add  $t3, $t0, $a0
        sb   $t2, 0($t3)
        beq  $t2, $zero, L2
        addi $t0, $t0, 1
        j    L1
L2:     jr   $ra

strcmp: lbu  $t0, 0($a0)
        lbu  $t1, 0($a1)
        bne  $t0, $t1, differ
        beqz $t0, equal
        addi $a0, $a0, 1
        addi $a1, $a1, 1
        j    strcmp
equal:  li   $v0, 0
        jr   $ra
differ: blt  $t0, $t1, below
        li   $v0, 1
        jr   $ra
below:  li   $v0, -1
        jr   $ra

strcat: lbu  $t0, ($a0)
        beqz $t0, append
        addiu $a0, $a0, 1
        b    strcat
append: lbu  $t0, ($a1)
        sb   $t0, ($a0)
        addiu $a0, $a0, 1
        addiu $a1, $a1, 1
        bnez $t0, append
        jr   $ra
