jal F
break
F: jr $ra
