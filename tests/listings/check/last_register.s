nop
add $1,$2,$32