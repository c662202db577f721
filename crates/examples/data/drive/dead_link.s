# Instruction 3 is on a wrong path and wants the value of 0; instruction 4 wants that of 1.
        addiu $1,$0,1
        addiu $3,$0,3
        beq   $0,$0,E
        addu  $2,$1,$1
E:      addu  $4,$3,$3
        break
