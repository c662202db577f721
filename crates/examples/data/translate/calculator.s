# Works out a term in reverse Polish notation with a stack of its own.
        .data
term:   .asciiz "3 4 + 2 * 7 / 12 - 5 *"
value:  .word   0
        .align  2
bottom: .space  64
        .text
        .globl main
main:   la      $s0, term
        la      $s1, bottom
read:   lb      $t0, 0($s0)
        addi    $s0, $s0, 1
        beq     $t0, ' ', read
        beqz    $t0, result
        beq     $t0, '+', op
        beq     $t0, '-', op
        beq     $t0, '*', op
        beq     $t0, '/', op
        li      $t1, 0
digits: sub     $t0, $t0, '0'
        mul     $t1, $t1, 10
        add     $t1, $t1, $t0
        lb      $t0, 0($s0)
        blt     $t0, '0', push
        addi    $s0, $s0, 1
        j       digits
push:   sw      $t1, 0($s1)
        addi    $s1, $s1, 4
        j       read
op:     lw      $t2, -4($s1)
        lw      $t1, -8($s1)
        addi    $s1, $s1, -8
        beq     $t0, '+', plus
        beq     $t0, '-', minus
        beq     $t0, '*', times
        div     $t1, $t1, $t2
        j       push
plus:   add     $t1, $t1, $t2
        j       push
minus:  sub     $t1, $t1, $t2
        j       push
times:  mul     $t1, $t1, $t2
        j       push
result: lw      $t1, -4($s1)
        sw      $t1, value
        li      $v0, 1
        move    $a0, $t1
        syscall
        li      $a0, 0
        li      $v0, 17
        syscall
