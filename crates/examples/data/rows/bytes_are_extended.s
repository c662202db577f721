.word 0x80
lb $1,0($0)
lbu $2,0($0)
break
