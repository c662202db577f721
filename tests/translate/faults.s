# Faults of several kinds, which are told in one go.
        .data
half:   .float 1.5
big:    .word 070000
        .space 70000
        .text
main:   li   $v0, 5
        syscall
        add  $t0, t1, $t2
        lw   $t0, nowhere($t1)
loop    addi $t0, $t0, 1
        blt  $t0, $t1, Loop
        mfc0 $t0, $12
        ll   $t0, ($t1)
        .frobnicate 3
