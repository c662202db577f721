# Insertion sort, with a while loop that looks below the array's begin only as far as 0.
        .data
len:    .word   9
arr:    .word   9, 4, 4, -2, 17, 0, 123456, -99999, 3
        .text
        .globl main
main:   lw      $s0, len
        la      $s1, arr
        li      $t0, 1                  # i
for:    bge     $t0, $s0, endfor
        sll     $t1, $t0, 2
        add     $t1, $s1, $t1
        lw      $t2, 0($t1)             # key
        addi    $t3, $t0, -1            # j
while:  bltz    $t3, endwhile
        sll     $t4, $t3, 2
        add     $t4, $s1, $t4
        lw      $t5, 0($t4)
        ble     $t5, $t2, endwhile
        sw      $t5, 4($t4)
        addi    $t3, $t3, -1
        j       while
endwhile:
        addi    $t3, $t3, 1
        sll     $t4, $t3, 2
        add     $t4, $s1, $t4
        sw      $t2, 0($t4)
        addi    $t0, $t0, 1
        j       for
endfor: li      $t0, 0                  # prints it
print:  beq     $t0, $s0, exit
        sll     $t1, $t0, 2
        add     $t1, $s1, $t1
        lw      $a0, 0($t1)
        li      $v0, 1
        syscall
        li      $a0, 32
        li      $v0, 11
        syscall
        addi    $t0, $t0, 1
        j       print
exit:   li      $v0, 10
        syscall
