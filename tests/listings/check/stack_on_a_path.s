        .word   1
        .space  256
        beq     $a0,$zero,over
        addiu   $sp,$zero,260
over:   jal     f               # one of two paths has not set it
        break
f:      sw      $ra,-4($sp)
        jr      $ra
