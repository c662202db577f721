# The square of -3, and nobody who reads it.
        addiu $1,$0,-3
        mult  $1,$1
        break
