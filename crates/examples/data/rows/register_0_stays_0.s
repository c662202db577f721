addiu $0,$0,7
addu $1,$0,$0
break
