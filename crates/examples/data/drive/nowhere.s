# A branch that is never taken, to behind the last instruction.
        bne   $0,$0,E
        break
E:
