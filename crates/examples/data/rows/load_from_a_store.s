# ruu run FILE --bpred nottaken
.space 4
addiu $1,$0,7
sw $1,0($0)
lw $2,0($0)
break
