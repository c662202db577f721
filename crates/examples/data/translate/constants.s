# Constants of all sizes, in instructions that take 16 bits.
        .data
big:    .word 0x12345678, -2147483648, 2147483647, 4294967295
sums:   .space 64
        .text
        .globl main
main:   la    $s0, sums
        li    $t0, 32767
        li    $t1, -32768
        li    $t2, 65535
        li    $t3, 0xffff8000
        li    $t4, 0x10000
        li    $t5, 0xabcd1234
        li    $t6, 'z'
        add   $s1, $t0, 100000
        addu  $s2, $t2, -100000
        sub   $s3, $t1, 40000
        subu  $s4, $t5, -70000
        and   $s5, $t5, 0xffff0000
        or    $s6, $t0, 0x10001
        xor   $s7, $t5, -1
        nor   $t8, $t0, 0x0f0f
        mul   $t9, $t2, 70000
        sw    $s1, 0($s0)
        sw    $s2, 4($s0)
        sw    $s3, 8($s0)
        sw    $s4, 12($s0)
        sw    $s5, 16($s0)
        sw    $s6, 20($s0)
        sw    $s7, 24($s0)
        sw    $t8, 28($s0)
        sw    $t9, 32($s0)
        div   $a0, $t5, 1000
        rem   $a1, $t5, 1000
        divu  $a2, $t5, 1000
        remu  $a3, $t5, 1000
        sw    $a0, sums+36
        sw    $a1, sums+40
        sw    $a2, sums+44
        sw    $a3, sums+48
        lui   $v1, 0x1234
        ori   $v1, $v1, 0x5678
        bne   $v1, 0x12345678, wrong
        li    $v1, 1
wrong:  blt   $t1, -32768, end
        bgt   $t2, 65534, bigger
        li    $v1, 2
bigger: beq   $t1, -32768, end
        li    $v1, 3
end:    li    $v0, 10
        syscall
