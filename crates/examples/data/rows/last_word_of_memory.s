.space 65536
ori $2,$0,65532
sw $2,0($2)
break
