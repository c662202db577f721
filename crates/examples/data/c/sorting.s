# _start
        lui $sp,1
        addiu $sp,$sp,-16
        jal L004002e0
        nop
        break
        nop
        nop
        nop

# allocate
L00400020:
        lui $v1,0
        lw $v0,112($v1)
        nop
        addu $a0,$v0,$a0
        sw $a0,112($v1)
        jr $ra
        nop

# by_letters
        lb $v1,0($a0)
        nop
        bne $v1,$zero,L00400068
        nop
        beq $zero,$zero,L004000a8
        nop
L00400054:
        lb $v1,0($a0)
        nop
        beq $v1,$zero,L00400090
        nop
        or $a1,$a2,$zero
L00400068:
        lb $v0,0($a1)
        addiu $a0,$a0,1
        addiu $a2,$a1,1
        beq $v0,$v1,L00400054
        nop
        andi $v1,$v1,255
L00400080:
        andi $v0,$v0,255
        subu $v0,$v1,$v0
        jr $ra
        nop
L00400090:
        lb $v0,1($a1)
        nop
        andi $v0,$v0,255
        subu $v0,$v1,$v0
        jr $ra
        nop
L004000a8:
        lb $v0,0($a1)
        beq $zero,$zero,L00400080
        nop

# cut_words
L004000b4:
        lb $v0,0($a0)
        nop
        beq $v0,$zero,L004001c8
        nop
        addiu $sp,$sp,-24
        lui $t3,0
        or $a2,$a0,$zero
        sw $ra,20($sp)
        lui $t2,0
        addiu $t3,$t3,260
        addiu $t1,$zero,32
L004000e0:
        addiu $v1,$a2,1
        or $a1,$a2,$zero
        or $t0,$zero,$zero
        beq $zero,$zero,L00400108
        nop
L004000f4:
        lb $v0,0($v1)
        or $a1,$v1,$zero
        addiu $v1,$v1,1
        beq $v0,$zero,L004001a0
        nop
L00400108:
        or $a3,$t0,$zero
        addiu $t0,$t0,1
        bne $v0,$t1,L004000f4
        nop
        or $a0,$t0,$zero
        jal L00400020
        nop
        beq $a3,$zero,L00400150
        nop
L0040012c:
        or $a0,$a2,$zero
        or $v1,$v0,$zero
        addu $a3,$a2,$a3
L00400138:
        lb $a2,0($a0)
        addiu $a0,$a0,1
        sb $a2,0($v1)
        addiu $v1,$v1,1
        bne $a0,$a3,L00400138
        nop
L00400150:
        lw $v1,256($t2)
        nop
        sll $a0,$v1,2
        addu $a0,$t3,$a0
        addiu $v1,$v1,1
        sw $v1,256($t2)
        sw $v0,0($a0)
        lb $v0,0($a1)
        nop
        bne $v0,$t1,L0040018c
        nop
L0040017c:
        lb $v0,1($a1)
        addiu $a1,$a1,1
        beq $v0,$t1,L0040017c
        nop
L0040018c:
        beq $v0,$zero,L004001b8
        nop
        or $a2,$a1,$zero
        beq $zero,$zero,L004000e0
        nop
L004001a0:
        addiu $a0,$a3,2
        jal L00400020
        nop
        or $a3,$t0,$zero
        beq $zero,$zero,L0040012c
        nop
L004001b8:
        lw $ra,20($sp)
        addiu $sp,$sp,24
        jr $ra
        nop
L004001c8:
        jr $ra
        nop

# sort
L004001d0:
        slti $v0,$a1,2
        bne $v0,$zero,L004002d0
        nop
        addiu $sp,$sp,-56
        sw $fp,48($sp)
        sw $s7,44($sp)
        sw $s6,40($sp)
        sw $s5,36($sp)
        sw $s4,32($sp)
        sw $ra,52($sp)
        sw $s3,28($sp)
        sw $s2,24($sp)
        sw $s1,20($sp)
        sw $s0,16($sp)
        or $s7,$a1,$zero
        or $fp,$a0,$zero
        or $s4,$a2,$zero
        addiu $s6,$a0,4
        addiu $s5,$zero,1
L0040021c:
        lw $s3,0($s6)
        or $s0,$s6,$zero
        or $s1,$s5,$zero
        beq $zero,$zero,L00400248
        nop
L00400230:
        lw $v0,-4($s0)
        nop
        sw $v0,0($s0)
        addiu $s0,$s2,-4
        beq $s1,$zero,L004002b0
        nop
L00400248:
        lw $a0,-4($s0)
        or $a1,$s3,$zero
        jalr $ra,$s4
        nop
        or $s2,$s0,$zero
        addiu $s1,$s1,-1
        bgtz $v0,L00400230
        nop
        addiu $s5,$s5,1
        sw $s3,0($s2)
        addiu $s6,$s6,4
        bne $s7,$s5,L0040021c
        nop
L0040027c:
        lw $ra,52($sp)
        lw $fp,48($sp)
        lw $s7,44($sp)
        lw $s6,40($sp)
        lw $s5,36($sp)
        lw $s4,32($sp)
        lw $s3,28($sp)
        lw $s2,24($sp)
        lw $s1,20($sp)
        lw $s0,16($sp)
        addiu $sp,$sp,56
        jr $ra
        nop
L004002b0:
        or $s2,$fp,$zero
        addiu $s5,$s5,1
        sw $s3,0($s2)
        addiu $s6,$s6,4
        bne $s7,$s5,L0040021c
        nop
        beq $zero,$zero,L0040027c
        nop
L004002d0:
        jr $ra
        nop
        nop
        nop

# main
L004002e0:
        addiu $sp,$sp,-32
        lui $a0,0
        addiu $a0,$a0,16
        sw $s1,24($sp)
        lui $s1,0
        sw $ra,28($sp)
        sw $s0,20($sp)
        jal L004000b4
        nop
        lui $s0,0
        lw $a1,256($s1)
        lui $a2,64
        addiu $a2,$a2,60
        addiu $a0,$s0,260
        jal L004001d0
        nop
        lw $v0,256($s1)
        nop
        blez $v0,L00400390
        nop
        addiu $a2,$s0,260
        sll $a3,$v0,2
        lui $v1,0
        addu $a3,$a3,$a2
        addiu $v1,$v1,128
        addiu $t0,$zero,32
L00400348:
        lw $a1,0($a2)
        nop
        lb $a0,0($a1)
        nop
        beq $a0,$zero,L00400378
        nop
L00400360:
        sb $a0,0($v1)
        lb $a0,1($a1)
        addiu $a1,$a1,1
        addiu $v1,$v1,1
        bne $a0,$zero,L00400360
        nop
L00400378:
        or $a0,$v1,$zero
        addiu $a2,$a2,4
        addiu $v1,$v1,1
        sb $t0,0($a0)
        bne $a3,$a2,L00400348
        nop
L00400390:
        lw $ra,28($sp)
        lw $s1,24($sp)
        lw $s0,20($sp)
        addiu $sp,$sp,32
        jr $ra
        nop

# data
        .space 16
        .word 0x65736572,0x74617672,0x206e6f69,0x74617473 # 0x00000010
        .word 0x206e6f69,0x69676572,0x72657473,0x64707520 # 0x00000020
        .word 0x20657461,0x74696e75,0x616f6c20,0x74732064 # 0x00000030
        .word 0x2065726f,0x75657571,0x69642065,0x74617073 # 0x00000040
        .word 0x69206863,0x65757373,0x69727720,0x61626574 # 0x00000050
        .word 0x63206b63,0x696d6d6f,0x00000074,0x00000000 # 0x00000060
        .word 0x00000150,0x00000000,0x00000000,0x00000000 # 0x00000070
        .space 65408
