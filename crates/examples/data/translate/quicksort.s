# Quicksort of an array, recursive, with the last element as pivot.
        .data
data:   .word 44, 75, 23, 43, 55, 12, 64, 77, 33, 1, 90, 44
size:   .word 12
        .text
        .globl main
main:   la    $a0, data
        li    $a1, 0
        lw    $a2, size
        addi  $a2, $a2, -1
        jal   quicksort
        li    $v0, 10
        syscall

quicksort:
        bge   $a1, $a2, leave
        addi  $sp, $sp, -16
        sw    $ra, 0($sp)
        sw    $s0, 4($sp)
        sw    $s1, 8($sp)
        sw    $s2, 12($sp)
        move  $s0, $a1
        move  $s1, $a2
        jal   partition
        move  $s2, $v0
        move  $a1, $s0
        addi  $a2, $s2, -1
        jal   quicksort
        addi  $a1, $s2, 1
        move  $a2, $s1
        jal   quicksort
        lw    $ra, 0($sp)
        lw    $s0, 4($sp)
        lw    $s1, 8($sp)
        lw    $s2, 12($sp)
        addi  $sp, $sp, 16
leave:  jr    $ra

partition:
        sll   $t0, $a2, 2
        addu  $t0, $a0, $t0
        lw    $t1, 0($t0)           # pivot
        addi  $t2, $a1, -1          # i
        move  $t3, $a1              # j
scan:   bge   $t3, $a2, place
        sll   $t4, $t3, 2
        addu  $t4, $a0, $t4
        lw    $t5, 0($t4)
        bgt   $t5, $t1, skip
        addi  $t2, $t2, 1
        sll   $t6, $t2, 2
        addu  $t6, $a0, $t6
        lw    $t7, 0($t6)
        sw    $t5, 0($t6)
        sw    $t7, 0($t4)
skip:   addi  $t3, $t3, 1
        j     scan
place:  addi  $t2, $t2, 1
        sll   $t6, $t2, 2
        addu  $t6, $a0, $t6
        lw    $t7, 0($t6)
        sw    $t1, 0($t6)
        sw    $t7, 0($t0)
        move  $v0, $t2
        jr    $ra
