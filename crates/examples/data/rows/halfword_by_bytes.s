.space 8
addiu $1,$0,0x1234
sh $1,6($0)
lbu $2,7($0)
lb $3,6($0)
break
