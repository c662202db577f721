jal F
F: nor $1,$31,$0
break
