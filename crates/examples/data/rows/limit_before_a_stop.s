# ruu run FILE --limit 7
addiu $1,$0,3
L: addiu $1,$1,-1
bne $1,$0,L
break
