# Register 1 is written before the branch and, on the wrong path, behind it.
        addiu $1,$0,1
        beq   $0,$0,E
        addiu $1,$0,2
E:      break
