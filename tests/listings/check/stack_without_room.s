        .space  65400
        .word   1
        lw      $t0,0($sp)
        addiu   $sp,$sp,4       # and the end
