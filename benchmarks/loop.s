# A loop of two instructions, and a loop round it: 20,000,601 instructions.
        addiu $2,$0,200
again:  ori   $1,$0,50000
down:   addiu $1,$1,-1
        bne   $1,$0,down
        addiu $2,$2,-1
        bne   $2,$0,again
        break
