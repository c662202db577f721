addiu $1,$0,-6
addiu $2,$0,4
mult $1,$2
mflo $3
mfhi $4
break
