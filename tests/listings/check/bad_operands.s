nop
nop
add $1,$2
