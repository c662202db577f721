table:  .word   1,2             # before the first instruction too
        lui     $t0,0
again:                          # its data is in the next line
        .space  40000
        bne     $t0,$zero,again # goes to itself
more: other: .WORD 5
        break
late:   .word   7
