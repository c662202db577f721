# Merge sort with a second array, recursive: sort($a0, $a1) for the elements from $a0 up to $a1.
        .data
a:      .word 38, 27, 43, 3, 9, 82, 10, -1, 55, 2, 2
temp:   .space 44
        .text
        .globl main
main:   sub  $sp, $sp, 4
        sw   $ra, ($sp)
        li   $a0, 0
        li   $a1, 11
        jal  sort
        lw   $ra, ($sp)
        add  $sp, $sp, 4
        jr   $ra

sort:   sub  $t0, $a1, $a0
        ble  $t0, 1, sorted
        sub  $sp, $sp, 16
        sw   $ra, ($sp)
        sw   $a0, 4($sp)
        sw   $a1, 8($sp)
        add  $t0, $a0, $a1
        srl  $t0, $t0, 1
        sw   $t0, 12($sp)
        move $a1, $t0
        jal  sort
        lw   $a0, 12($sp)
        lw   $a1, 8($sp)
        jal  sort
        lw   $a0, 4($sp)
        lw   $a1, 12($sp)
        lw   $a2, 8($sp)
        jal  merge
        lw   $ra, ($sp)
        add  $sp, $sp, 16
sorted: jr   $ra

merge:  move $t0, $a0               # left
        move $t1, $a1               # right
        move $t2, $a0               # out
pick:   bge  $t2, $a2, copy
        bge  $t0, $a1, right
        bge  $t1, $a2, left
        sll  $t3, $t0, 2
        lw   $t4, a($t3)
        sll  $t3, $t1, 2
        lw   $t5, a($t3)
        bgt  $t4, $t5, right
left:   sll  $t3, $t0, 2
        lw   $t6, a($t3)
        add  $t0, $t0, 1
        b    put
right:  sll  $t3, $t1, 2
        lw   $t6, a($t3)
        add  $t1, $t1, 1
put:    sll  $t3, $t2, 2
        sw   $t6, temp($t3)
        add  $t2, $t2, 1
        b    pick
copy:   bge  $a0, $a2, merged
        sll  $t3, $a0, 2
        lw   $t6, temp($t3)
        sw   $t6, a($t3)
        add  $a0, $a0, 1
        b    copy
merged: jr   $ra
