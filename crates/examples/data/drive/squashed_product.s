# A product on the wrong path of a branch that is always taken.
        addiu $1,$0,3
        beq   $0,$0,E
        mult  $1,$1
E:      break
