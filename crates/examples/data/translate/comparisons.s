# Each comparison that sets a register, of registers and with numbers. The results are packed into words.
        .data
left:   .word 5, -5, 5, 0x80000000, -1, 0
right:  .word 5, 5, -5, 0x7fffffff, 1, -32769
bits:   .word 0:6
consts: .word 0:6
        .text
        .globl main
main:   li    $s0, 0
loop:   sll   $t8, $s0, 2
        lw    $t0, left($t8)
        lw    $t1, right($t8)
        move  $s1, $zero
        seq   $t2, $t0, $t1
        jal   pack
        sne   $t2, $t0, $t1
        jal   pack
        sgt   $t2, $t0, $t1
        jal   pack
        sge   $t2, $t0, $t1
        jal   pack
        slt   $t2, $t0, $t1
        jal   pack
        sle   $t2, $t0, $t1
        jal   pack
        sgtu  $t2, $t0, $t1
        jal   pack
        sgeu  $t2, $t0, $t1
        jal   pack
        sltu  $t2, $t0, $t1
        jal   pack
        sleu  $t2, $t0, $t1
        jal   pack
        sw    $s1, bits($t8)
        move  $s1, $zero
        seq   $t2, $t0, 5
        jal   pack
        seq   $t2, $t0, -1
        jal   pack
        sne   $t2, $t0, -5
        jal   pack
        sgt   $t2, $t0, -1
        jal   pack
        sge   $t2, $t0, 5
        jal   pack
        slt   $t2, $t0, 6
        jal   pack
        sle   $t2, $t0, -5
        jal   pack
        sgtu  $t2, $t0, 4
        jal   pack
        sleu  $t2, $t0, 70000
        jal   pack
        sge   $t2, $t0, 0x12345
        jal   pack
        sw    $s1, consts($t8)
        addi  $s0, $s0, 1
        blt   $s0, 6, loop
        li    $v0, 10
        syscall
pack:   sll   $s1, $s1, 1
        or    $s1, $s1, $t2
        jr    $ra
