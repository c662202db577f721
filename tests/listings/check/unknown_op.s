nop

loop: mull $1,$2,$3 # no
