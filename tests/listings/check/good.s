# four instructions, three labels on two lines, twelve bytes
        .word 1,2
start:  lw $t0,($zero)
a: b:   addiu $t0,$t0,-1        # bytes of a comment are not looked at: ü
        bne $t0,$zero,a
        break
        .space 4
