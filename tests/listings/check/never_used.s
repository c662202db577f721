start:
first:  addiu   $t0,$zero,3     # before the first instruction labels are for the reader
again:  bne     $t0,$zero,last
Again:  data: .word 5
last:   break
