lui $1,0x8000
addiu $2,$0,1
sub $3,$1,$2
