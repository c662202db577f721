# Greatest common divisors by Euclid, of pairs in a table.
	.data
pairs:	.word 48, 36, 17, 5, 1071, 462, 270, 192
	.word 0, 9
count:	.word 5
result:	.word 0:5
	.text
	.globl main
main:	la	$s0, pairs
	la	$s1, result
	lw	$s2, count
next:	lw	$a0, 0($s0)
	lw	$a1, 4($s0)
	jal	gcd
	sw	$v0, 0($s1)
	addiu	$s0, $s0, 8
	addiu	$s1, $s1, 4
	addiu	$s2, $s2, -1
	bgt	$s2, $zero, next
	li	$v0, 10
	syscall
gcd:	beq	$a1, $0, found
	rem	$t0, $a0, $a1
	move	$a0, $a1
	move	$a1, $t0
	j	gcd
found:	move	$v0, $a0
	jr	$ra
