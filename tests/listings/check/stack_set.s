        .space  65536
        j       main
f:      addiu   $sp,$sp,-4      # no path is here before main
        addiu   $sp,$sp,4
        jr      $ra
main:   lui     $sp,1
        jal     f
        break
