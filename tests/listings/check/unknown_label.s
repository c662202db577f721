nop
beq $1,$2, away
break
