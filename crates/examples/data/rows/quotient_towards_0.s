addiu $1,$0,-7
addiu $2,$0,2
div $1,$2
break
