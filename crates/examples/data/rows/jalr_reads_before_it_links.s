lui $1,0x40
ori $1,$1,16
jalr $1,$1
break
break
