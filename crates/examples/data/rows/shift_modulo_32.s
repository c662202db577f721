addiu $1,$0,-8
addiu $2,$0,33
srav $3,$1,$2
break
