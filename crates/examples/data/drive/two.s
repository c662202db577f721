        addiu $1,$0,1
        addiu $2,$0,2
        break
