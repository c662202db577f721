lui $1,0x7fff
ori $1,$1,0xffff
addi $2,$1,1
