        addiu $1,$0,3
        beq   $0,$0,E
        addiu $1,$0,9       # the wrong path
E:      addu  $2,$1,$1
        break
