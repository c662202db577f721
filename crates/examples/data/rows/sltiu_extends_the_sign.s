sltiu $1,$0,-1
break
