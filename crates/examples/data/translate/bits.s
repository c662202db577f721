# Counting, turning and mirroring bits.
        .data
words:  .word 0, 1, 0xff00ff00, -1, 0x12345678, 0x80000001
ones:   .byte 0:6
        .align 2
mirror: .space 24
turned: .space 24
signs:  .space 24
        .text
        .globl main
main:
        move  $s0, $zero
each:   mul   $s1, $s0, 4
        lw    $a0, words($s1)
        jal   count
        sb    $v0, ones($s0)
        lw    $a0, words($s1)
        jal   reverse
        sw    $v0, mirror($s1)
        lw    $t0, words($s1)
        rol   $t1, $t0, 8
        ror   $t2, $t0, $s0
        rol   $t3, $t2, $s0
        xor   $t3, $t3, $t0         # turned there and back
        addu  $t1, $t1, $t3
        sw    $t1, turned($s1)
        not   $t4, $t0
        negu  $t5, $t0
        subu  $t6, $t5, $t4         # 1
        abs   $t7, $t5
        addu  $t7, $t7, $t6
        sw    $t7, signs($s1)
        addi  $s0, $s0, 1
        bne   $s0, 6, each
        li    $v0, 10
        syscall
count:  li    $v0, 0
bit:    beqz  $a0, counted
        and   $t0, $a0, 1
        add   $v0, $v0, $t0
        srl   $a0, $a0, 1
        b     bit
counted:
        jr    $ra
reverse:
        li    $v0, 0
        li    $t0, 32
shift:  sll   $v0, $v0, 1
        andi  $t1, $a0, 1
        or    $v0, $v0, $t1
        srl   $a0, $a0, 1
        sub   $t0, $t0, 1
        bgtz  $t0, shift
        jr    $ra
