# Multiply and divide: degrees Fahrenheit become degrees Celsius, as (f - 32) * 5 / 9 with a signed
# product and quotient, and seconds become hours, minutes and seconds with unsigned quotients.
#
# A product or quotient is left in LO and HI: LO has the low word of a product or the quotient, HI
# the high word or the remainder. A signed quotient is rounded toward zero.

        .word -40, 14, 33, 212          # the degrees; the results take their places
        .word 45296                     # the seconds; then the hours
        .space 8                        # the minutes and the seconds

        addiu $s0,$zero,0               # 0x00400000: the address of the next number
        addiu $t5,$zero,5
        addiu $t9,$zero,9
degree: lw    $t0,0($s0)                # 0x0040000c
        addiu $t0,$t0,-32
        mult  $t0,$t5
        mflo  $t0                       # -360, -90, 5, 900
        div   $t0,$t9
        mflo  $t0                       # -40, -10, 0, 100
        sw    $t0,0($s0)
        addiu $s0,$s0,4
        slti  $t1,$s0,16
        bne   $t1,$zero,degree
        addiu $t6,$zero,60              # 0x00400034
        lw    $t0,16($zero)
        divu  $t0,$t6                   # 754 minutes
        mfhi  $t1                       # and 56 seconds
        mflo  $t0
        divu  $t0,$t6                   # 12 hours
        mfhi  $t2                       # and 34 minutes
        mflo  $t3
        sw    $t3,16($zero)
        sw    $t2,20($zero)
        sw    $t1,24($zero)
        break                           # 0x00400060: LO is 12, HI is 34
