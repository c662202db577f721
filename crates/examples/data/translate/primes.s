# The sieve of Eratosthenes, a byte a number.
        .data
        .align 2
N:      .word 100
count:  .word 0
primes: .space 120
flags:  .space 101
        .text
        .globl main
main:   lw    $s0, N
        li    $t0, 2
clear:  bgt   $t0, $s0, sieve
        li    $t1, 1
        sb    $t1, flags($t0)
        addi  $t0, $t0, 1
        b     clear
sieve:  li    $t0, 2
outer:  mul   $t1, $t0, $t0
        bgt   $t1, $s0, collect
        lb    $t2, flags($t0)
        beq   $t2, 0, next
inner:  bgt   $t1, $s0, next
        sb    $zero, flags($t1)
        add   $t1, $t1, $t0
        b     inner
next:   addi  $t0, $t0, 1
        b     outer
collect:
        li    $t0, 2
        li    $t3, 0
look:   bgt   $t0, $s0, finish
        lb    $t2, flags($t0)
        beqz  $t2, no
        sll   $t4, $t3, 2
        sw    $t0, primes($t4)
        addi  $t3, $t3, 1
no:     addi  $t0, $t0, 1
        b     look
finish: sw    $t3, count
        li    $v0, 10
        syscall
