# A fault on the wrong path of a branch that is always taken.
        beq   $0,$0,E
        lw    $1,1($0)
E:      break
