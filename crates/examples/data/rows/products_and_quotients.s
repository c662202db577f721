lui $1,0x8000
addiu $2,$0,-7
ori $5,$0,9
L: mult $1,$2
mfhi $3
mflo $4
mtlo $5
divu $1,$5
mflo $6
div $2,$5
mult $6,$3
mthi $4
addiu $5,$5,-1
bne $5,$0,L
div $1,$5
break
