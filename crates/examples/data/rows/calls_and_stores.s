.space 8
ori $1,$0,20
L: sw $1,0($0)
sb $1,1($0)
lw $2,0($0)
addu $3,$3,$2
sw $3,4($0)
lhu $4,6($0)
jal F
addiu $1,$1,-1
bne $1,$0,L
break
F: xor $6,$6,$4
jr $ra
