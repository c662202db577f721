# Is a text the same from both ends? Blanks and capitals do not count.
	.data
text:	.asciiz	"Never odd or even"
yes:	.asciiz	"It is a palindrome.\n"
no:	.asciiz	"It is no palindrome.\n"
clean:	.space	32
answer:	.byte	0
	.text
	.globl	main
main:
	la	$a0 text		# commas may be left out
	la	$a1 clean
	move	$t9 $a1
strip:
	lb	$t0 0($a0)
	beq	$t0 $0 stripped
	beq	$t0 32 skip
	bgt	$t0 90 keep		# lower case
	addi	$t0 $t0 32
keep:	sb	$t0 0($a1)
	addi	$a1 $a1 1
skip:	addi	$a0 $a0 1
	j	strip
stripped:
	addi	$a1 $a1 -1
compare:
	bge	$t9 $a1 good
	lb	$t0 ($t9)
	lb	$t1 ($a1)
	bne	$t0 $t1 bad
	addi	$t9 $t9 1
	addi	$a1 $a1 -1
	j	compare
good:	li	$t2 1
	sb	$t2 answer
	la	$a0 yes
	j	print
bad:	la	$a0 no
print:	li	$v0 4
	syscall
	li	$v0 10
	syscall
