# _start
        lui $sp,1
        addiu $sp,$sp,-16
        jal L00400140
        nop
        break
        nop
        nop
        nop

# greatest_common_divisor
L00400020:
        beq $a1,$zero,L00400048
        nop
L00400028:
        divu $a0,$a1
        or $v0,$a1,$zero
        or $a0,$v0,$zero
        mfhi $a1
        bne $a1,$zero,L00400028
        nop
        jr $ra
        nop
L00400048:
        or $v0,$a0,$zero
        jr $ra
        nop

# power_modulo
L00400054:
        addiu $v0,$zero,1
        beq $a1,$zero,L004000b0
        nop
L00400060:
        mult $a0,$a0
        andi $a3,$a1,1
        srl $a1,$a1,1
        mflo $v1
        beq $a3,$zero,L00400098
        nop
        mult $a0,$v0
        mflo $v0
        nop
        nop
        divu $v0,$a2
        mfhi $v0
        nop
        nop
L00400098:
        divu $v1,$a2
        mfhi $a0
        bne $a1,$zero,L00400060
        nop
        jr $ra
        nop
L004000b0:
        jr $ra
        nop

# write_decimal
L004000b8:
        addiu $sp,$sp,-16
        bltz $a0,L00400128
        nop
L004000c4:
        or $v1,$zero,$zero
        addiu $a3,$zero,10
L004000cc:
        divu $a0,$a3
        addiu $v1,$v1,1
        addu $v0,$sp,$v1
        sltiu $t0,$a0,10
        or $t1,$v1,$zero
        mfhi $a2
        addiu $a0,$a2,48
        sb $a0,-1($v0)
        mflo $a0
        beq $t0,$zero,L004000cc
        nop
        or $v1,$a1,$zero
L004000fc:
        lbu $a0,-1($v0)
        addiu $v0,$v0,-1
        sb $a0,0($v1)
        addiu $v1,$v1,1
        bne $v0,$sp,L004000fc
        nop
        addu $a1,$a1,$t1
        sb $zero,0($a1)
        addiu $sp,$sp,16
        jr $ra
        nop
L00400128:
        addiu $v0,$zero,45
        sb $v0,0($a1)
        subu $a0,$zero,$a0
        addiu $a1,$a1,1
        beq $zero,$zero,L004000c4
        nop

# main
L00400140:
        addiu $sp,$sp,-24
        addiu $a1,$zero,2079
        addiu $a0,$zero,3780
        sw $ra,20($sp)
        jal L00400020
        nop
        or $t0,$v0,$zero
        addiu $a2,$zero,30011
        addiu $a1,$zero,1000
        addiu $a0,$zero,7
        lui $v0,0
        sw $t0,20($v0)
        jal L00400054
        nop
        mult $t0,$v0
        lui $a1,0
        lui $v1,0
        addiu $a1,$a1,24
        sw $v0,16($v1)
        mflo $a0
        subu $a0,$zero,$a0
        jal L004000b8
        nop
        lw $ra,20($sp)
        or $v0,$zero,$zero
        addiu $sp,$sp,24
        jr $ra
        nop

# data
        .space 65536
