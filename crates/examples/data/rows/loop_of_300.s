ori $1,$0,300
L: addiu $1,$1,-1
bne $1,$0,L
break
