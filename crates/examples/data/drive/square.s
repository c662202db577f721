# The square of -3: its low half and its high half are two tenants.
        addiu $1,$0,-3
        mult  $1,$1
        mflo  $2
        break
