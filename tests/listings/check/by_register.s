        lui     $t0,64
        addiu   $t0,$t0,16
        jr      $t0
        break
        addiu   $t1,$zero,1     # the jump leads here
        break
