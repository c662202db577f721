# A branch that is always taken, over an instruction on the wrong path.
        beq   $0,$0,E
        addiu $1,$0,1
E:      addiu $2,$0,2
        break
