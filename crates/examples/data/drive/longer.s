# Each instruction reads what the one before it has made.
        addiu $1,$0,5
        addu  $2,$1,$1
        addiu $3,$2,1
        break
