        beq     $t0,$t1,end
        j       over
        break
over:   addiu   $t0,$t0,1
end:
