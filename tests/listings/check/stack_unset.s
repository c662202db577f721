        addiu   $sp,$sp,-4      # the first instruction of many a function
        sw      $ra,0($sp)
        break
