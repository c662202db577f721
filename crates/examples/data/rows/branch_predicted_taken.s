# ruu run FILE --bpred taken
beq $0,$0,E
lw $1,1($0)
E: break
