# Finds numbers in a sorted array by halving; -1 where one is not there.
        .data
table:  .word 2, 3, 5, 7, 11, 13, 17, 19, 23, 29, 31, 37
keys:   .word 2, 37, 13, 14, 1, 40
places: .space 24
        .text
        .globl main
main:
        li   $s0, 0                 # i
        la   $s1, keys
        la   $s2, places
each:   mul  $t0, $s0, 4
        add  $t1, $s1, $t0
        lw   $a0, 0($t1)
        li   $a1, 0
        li   $a2, 11
        jal  search
        mul  $t0, $s0, 4
        add  $t1, $s2, $t0
        sw   $v0, 0($t1)
        add  $s0, $s0, 1
        blt  $s0, 6, each
        li   $v0, 10
        syscall

search: bgt  $a1, $a2, missing
        add  $t0, $a1, $a2
        div  $t0, $t0, 2            # the middle
        sll  $t1, $t0, 2
        lw   $t2, table($t1)
        beq  $t2, $a0, hit
        blt  $t2, $a0, right
        addi $a2, $t0, -1
        j    search
right:  addi $a1, $t0, 1
        j    search
hit:    move $v0, $t0
        jr   $ra
missing:
        li   $v0, -1
        jr   $ra
