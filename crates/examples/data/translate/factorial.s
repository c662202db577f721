# Recursive factorial, with a frame for each call.
        .text
        .globl main
main:
        subu  $sp, $sp, 32      # frame of 32 bytes
        sw    $ra, 20($sp)
        sw    $fp, 16($sp)
        addiu $fp, $sp, 28
        li    $a0, 10
        jal   fact
        sw    $v0, answer
        move  $s0, $v0
        la    $a0, text
        li    $v0, 4
        syscall
        move  $a0, $s0
        li    $v0, 1
        syscall
        lw    $ra, 20($sp)
        lw    $fp, 16($sp)
        addiu $sp, $sp, 32
        jr    $ra

        .data
text:   .asciiz "The factorial of 10 is "
        .align 2
answer: .space 4

        .text
fact:   subu  $sp, $sp, 32
        sw    $ra, 20($sp)
        sw    $fp, 16($sp)
        addiu $fp, $sp, 28
        sw    $a0, 0($fp)       # n
        lw    $v0, 0($fp)
        bgtz  $v0, more
        li    $v0, 1
        j     back
more:   lw    $v1, 0($fp)
        subu  $v0, $v1, 1
        move  $a0, $v0
        jal   fact
        lw    $v1, 0($fp)
        mul   $v0, $v0, $v1
back:   lw    $ra, 20($sp)
        lw    $fp, 16($sp)
        addiu $sp, $sp, 32
        jr    $ra
