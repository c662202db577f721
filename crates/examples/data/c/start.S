# Where a program begins: the stack is at the end of data memory, and the run ends where main does.
        .set    noreorder
        .globl  _start
        .type   _start, @function
_start:
        lui     $sp,1
        addiu   $sp,$sp,-16
        jal     main
        nop
        break
