.space 4
addiu $1,$0,-1
sw $1,0($0)
sb $0,1($0)
lw $2,0($0)
break
