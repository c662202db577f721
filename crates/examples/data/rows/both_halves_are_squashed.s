# ruu run FILE --bpred nottaken --ruu-size 4
beq $0,$0,E
mult $0,$0
E: break
