# ruu run FILE --limit 1
addiu $1,$0,3
mult $1,$1
break
