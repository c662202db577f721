# _start
        lui $sp,1
        addiu $sp,$sp,-16
        jal L00400060
        nop
        break
        nop
        nop
        nop

# cross_out
L00400020:
        sll $v1,$a0,1
        sltiu $v0,$v1,200
        beq $v0,$zero,L00400058
        nop
        lui $v0,0
        addiu $v0,$v0,24
        addu $v0,$v0,$v1
        addiu $a2,$zero,1
L00400040:
        addu $v1,$v1,$a0
        sltiu $a1,$v1,200
        sb $a2,0($v0)
        addu $v0,$v0,$a0
        bne $a1,$zero,L00400040
        nop
L00400058:
        jr $ra
        nop

# main
L00400060:
        lui $t0,0
        addiu $t0,$t0,24
        or $a3,$t0,$zero
        addiu $t3,$zero,2
        addiu $t0,$t0,198
        lui $t1,0
        subu $t3,$t3,$a3
        lui $t2,0
        beq $zero,$zero,L00400094
        nop
L00400088:
        addiu $a3,$a3,1
        beq $a3,$t0,L0040010c
        nop
L00400094:
        lbu $v0,2($a3)
        nop
        bne $v0,$zero,L00400088
        nop
        addiu $sp,$sp,-24
        sw $ra,20($sp)
L004000ac:
        lw $v0,16($t1)
        lw $v1,20($t2)
        addu $a0,$t3,$a3
        addiu $v1,$v1,1
        addu $v0,$v0,$a0
        addiu $a3,$a3,1
        sw $v1,20($t2)
        sw $v0,16($t1)
        jal L00400020
        nop
        beq $a3,$t0,L004000f8
        nop
L004000dc:
        lbu $v0,2($a3)
        nop
        beq $v0,$zero,L004000ac
        nop
        addiu $a3,$a3,1
        bne $a3,$t0,L004000dc
        nop
L004000f8:
        lw $ra,20($sp)
        lw $v0,16($t1)
        addiu $sp,$sp,24
        jr $ra
        nop
L0040010c:
        lw $v0,16($t1)
        jr $ra
        nop

# data
        .space 65536
