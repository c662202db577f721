# The Fibonacci number of 10, by recursion. Each call keeps its argument, its first result and its
# return address on a stack that grows down from the end of data memory.
#
# Registers by custom: a0 is the argument, v0 the result, sp the stack pointer, ra the address to
# return to. `jal` writes the address of the instruction behind it: there is no delay slot.

        .space 256

        addiu $sp,$zero,256
        addiu $a0,$zero,10
        jal   fib
        break                   # v0 is 55

fib:    slti  $t0,$a0,2         # fib of 0 is 0, of 1 it is 1
        beq   $t0,$zero,deep
        addu  $v0,$a0,$zero
        jr    $ra
deep:   addiu $sp,$sp,-12
        sw    $ra,8($sp)
        sw    $a0,4($sp)
        addiu $a0,$a0,-1
        jal   fib
        sw    $v0,0($sp)
        lw    $a0,4($sp)
        addiu $a0,$a0,-2
        jal   fib
        lw    $t1,0($sp)
        addu  $v0,$v0,$t1
        lw    $ra,8($sp)
        addiu $sp,$sp,12
        jr    $ra
