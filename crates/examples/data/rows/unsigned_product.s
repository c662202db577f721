addiu $1,$0,-1
multu $1,$1
break
