# The eight queens, here six: counts the ways, and keeps the first one.
        .data
N:      .word 6
ways:   .word 0
column: .space 6
first:  .space 6
        .text
        .globl main
main:   li    $a0, 0
        jal   place
        li    $v0, 10
        syscall
place:  lw    $t0, N
        bne   $a0, $t0, try
        lw    $t1, ways
        bnez  $t1, known
        li    $t2, 0
save:   bge   $t2, $t0, known
        lb    $t3, column($t2)
        sb    $t3, first($t2)
        addi  $t2, $t2, 1
        j     save
known:  addi  $t1, $t1, 1
        sw    $t1, ways
        jr    $ra
try:    addi  $sp, $sp, -12
        sw    $ra, 8($sp)
        sw    $s0, 4($sp)
        sw    $a0, 0($sp)
        li    $s0, 0
each:   lw    $t0, N
        bge   $s0, $t0, back
        lw    $a0, 0($sp)
        li    $t1, 0
safe:   bge   $t1, $a0, set
        lb    $t2, column($t1)
        beq   $t2, $s0, next
        sub   $t3, $t2, $s0
        abs   $t3, $t3
        sub   $t4, $a0, $t1
        beq   $t3, $t4, next
        addi  $t1, $t1, 1
        j     safe
set:    sb    $s0, column($a0)
        addi  $a0, $a0, 1
        jal   place
next:   addi  $s0, $s0, 1
        j     each
back:   lw    $a0, 0($sp)
        lw    $s0, 4($sp)
        lw    $ra, 8($sp)
        addi  $sp, $sp, 12
        jr    $ra
