# Adds the elements of an array and prints the sum.
        .data
array:  .word 12, 7, -3, 25, 8, 14, -6, 40
length: .word 8
sum:    .word 0
msg:    .asciiz "The sum is "
        .text
        .globl main
main:
        la   $t0, array         # address of the next element
        lw   $t1, length        # elements that are left
        li   $t2, 0             # sum
loop:   beqz $t1, done
        lw   $t3, ($t0)
        add  $t2, $t2, $t3
        addi $t0, $t0, 4
        sub  $t1, $t1, 1
        b    loop
done:   sw   $t2, sum
        li   $v0, 4
        la   $a0, msg
        syscall
        li   $v0, 1
        move $a0, $t2
        syscall
        li   $v0, 10
        syscall
