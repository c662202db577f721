# ruu run FILE --bpred nottaken --ruu-size 2
mult $0,$0
break
