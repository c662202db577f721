# A list whose nodes are data: value and next. Reverses it and adds it up.
        .data
head:   .word node1
node1:  .word 10, node2
node2:  .word 20, node3
node3:  .word 30, node4
node4:  .word 40, 0
total:  .word 0
        .text
        .globl main
main:   lw    $a0, head
        jal   reverse
        sw    $v0, head
        move  $a0, $v0
        li    $t0, 0
walk:   beq   $a0, $zero, end       # null
        lw    $t1, 0($a0)
        mul   $t0, $t0, 3
        add   $t0, $t0, $t1
        lw    $a0, 4($a0)
        j     walk
end:    sw    $t0, total
        li    $v0, 10
        syscall

reverse:
        move  $v0, $zero
turn:   beqz  $a0, turned
        lw    $t0, 4($a0)
        sw    $v0, 4($a0)
        move  $v0, $a0
        move  $a0, $t0
        b     turn
turned: jr    $ra
