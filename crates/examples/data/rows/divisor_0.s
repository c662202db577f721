addiu $1,$0,9
divu $1,$0
break
