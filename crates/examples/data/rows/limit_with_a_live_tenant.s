# ruu run FILE --ruu-size 2 --limit 1
addiu $1,$0,1
break
