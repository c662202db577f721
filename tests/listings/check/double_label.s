L: nop
L: break
