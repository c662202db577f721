# A loop without an end: the branch is always taken.
L:      beq   $0,$0,L
        addiu $1,$0,1
