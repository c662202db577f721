        .space  65536
        addiu   $sp,$sp,-4
        addu    $fp,$sp,$zero   # told once
        break
