# Builds a list in memory that system call 9 gives, in order, and adds it up.
        .data
values: .word 31, 4, 15, 92, 65, 35, 8
end_of: .word 0
first:  .word 0
sum:    .word 0
        .text
        .globl main
main:   la    $s0, values
        la    $s1, end_of
build:  beq   $s0, $s1, add_up
        li    $a0, 8                # a node: value and next
        li    $v0, 9
        syscall
        lw    $t0, 0($s0)
        sw    $t0, 0($v0)
        move  $a0, $v0
        jal   insert
        addiu $s0, $s0, 4
        j     build
add_up: lw    $t0, first
        li    $t1, 0
more:   beqz  $t0, done
        lw    $t2, 0($t0)
        sll   $t1, $t1, 1
        addu  $t1, $t1, $t2
        lw    $t0, 4($t0)
        j     more
done:   sw    $t1, sum
        li    $v0, 10
        syscall

# puts the node $a0 where it belongs
insert: la    $t0, first
        lw    $t1, 0($a0)
seek:   lw    $t2, 0($t0)
        beqz  $t2, here
        lw    $t3, 0($t2)
        bge   $t3, $t1, here
        addiu $t0, $t2, 4
        j     seek
here:   sw    $t2, 4($a0)
        sw    $a0, 0($t0)
        jr    $ra
