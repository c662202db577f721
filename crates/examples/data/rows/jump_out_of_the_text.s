addiu $1,$0,8
jr $1
