# A search tree in the heap: left, right, value. Its values go in order into an array.
        .data
keys:   .word 50, 30, 70, 20, 40, 60, 80, 30, 65
n_keys: .word 9
root:   .word 0
sorted: .word 0:9
filled: .word sorted
height: .word 0
        .text
        .globl main
main:   addi  $sp, $sp, -12
        sw    $ra, 8($sp)
        sw    $s0, 4($sp)
        sw    $s1, 0($sp)
        la    $s0, keys
        lw    $s1, n_keys
insert: lw    $a0, 0($s0)
        la    $a1, root
        jal   add_key
        addi  $s0, $s0, 4
        addi  $s1, $s1, -1
        bgtz  $s1, insert
        lw    $a0, root
        jal   in_order
        lw    $a0, root
        jal   depth
        sw    $v0, height
        lw    $s1, 0($sp)
        lw    $s0, 4($sp)
        lw    $ra, 8($sp)
        addi  $sp, $sp, 12
        jr    $ra

add_key:
        lw    $t0, 0($a1)
        beqz  $t0, new
        lw    $t1, 8($t0)
        blt   $a0, $t1, smaller
        addiu $a1, $t0, 4
        j     add_key
smaller:
        move  $a1, $t0
        j     add_key
new:    move  $t2, $a0
        li    $a0, 12
        li    $v0, 9
        syscall
        sw    $zero, 0($v0)
        sw    $zero, 4($v0)
        sw    $t2, 8($v0)
        sw    $v0, 0($a1)
        jr    $ra

in_order:
        beqz  $a0, empty
        addi  $sp, $sp, -8
        sw    $ra, 4($sp)
        sw    $a0, 0($sp)
        lw    $a0, 0($a0)
        jal   in_order
        lw    $a0, 0($sp)
        lw    $t0, 8($a0)
        lw    $t1, filled
        sw    $t0, 0($t1)
        addi  $t1, $t1, 4
        sw    $t1, filled
        lw    $a0, 4($a0)
        jal   in_order
        lw    $ra, 4($sp)
        addi  $sp, $sp, 8
empty:  jr    $ra

depth:  li    $v0, 0
        beqz  $a0, empty
        addi  $sp, $sp, -12
        sw    $ra, 8($sp)
        sw    $a0, 4($sp)
        lw    $a0, 0($a0)
        jal   depth
        sw    $v0, 0($sp)
        lw    $a0, 4($sp)
        lw    $a0, 4($a0)
        jal   depth
        lw    $t0, 0($sp)
        bge   $v0, $t0, higher
        move  $v0, $t0
higher: addi  $v0, $v0, 1
        lw    $ra, 8($sp)
        addi  $sp, $sp, 12
        jr    $ra
