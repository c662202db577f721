# Never ends by itself: a run ends at the limit of 1,000,000 instructions.
again:  addiu $v0,$v0,1
        j     again
