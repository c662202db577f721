# A switch by a table of labels: the cases 0 to 3, and all others.
        .data
jumps:  .word case0, case1, case2, case3
inputs: .word 3, 0, 2, 1, 7, -1
out:    .word 0, 0, 0, 0, 0, 0
        .text
        .globl main
main:
        la    $s0, inputs
        la    $s1, out
        li    $s2, 6
again:
        lw    $t0, 0($s0)
        bltz  $t0, default
        sltiu $t1, $t0, 4
        beqz  $t1, default
        sll   $t1, $t0, 2
        lw    $t2, jumps($t1)
        jr    $t2
case0:  li    $t3, 100
        b     store
case1:  li    $t3, 111
        b     store
case2:  li    $t3, 122
        b     store
case3:  li    $t3, 133
        b     store
default:
        li    $t3, -1
store:  sw    $t3, 0($s1)
        addi  $s0, $s0, 4
        addi  $s1, $s1, 4
        addi  $s2, $s2, -1
        bnez  $s2, again
        li    $v0, 10
        syscall
