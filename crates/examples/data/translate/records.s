# Records of mixed sizes: a name of 10 bytes, an age of one, a halfword and a word.
        .data
people: .ascii  "Ada       "
        .byte   36
        .half   -120
        .word   100000
        .asciiz "Alan T. M"
        .byte   41
        .half   250
        .word   -7
        .asciiz "Grace: #1"
        .byte   85
        .half   30000
        .word   0x7fffffff
oldest: .word   0
ages:   .word   0
points: .word   0
money:  .word   0
        .text
        .globl main
main:   la      $t0, people
        li      $t1, 3              # records that are left
        li      $t2, -1             # the greatest age
again:  lbu     $t3, 10($t0)
        lw      $t4, ages
        addu    $t4, $t4, $t3
        sw      $t4, ages
        ble     $t3, $t2, younger
        move    $t2, $t3
        sw      $t0, oldest
younger:
        lh      $t3, 12($t0)
        lw      $t4, points
        add     $t4, $t4, $t3
        sw      $t4, points
        lw      $t3, 16($t0)
        lw      $t4, money
        addu    $t4, $t4, $t3
        sw      $t4, money
        addiu   $t0, $t0, 20
        subu    $t1, $t1, 1
        bnez    $t1, again
        lw      $a0, oldest
        li      $v0, 4
        syscall
        li      $v0, 10
        syscall
