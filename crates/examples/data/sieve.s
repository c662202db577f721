# The sieve of Eratosthenes: one byte for each number below 64, which is 1 where the number is not
# prime. At the end v0 is how many primes there are, and v1 is the greatest of them.

        .space 64

        addiu $t0,$zero,1
        sb    $t0,0($zero)      # 0 and 1 are not prime
        sb    $t0,1($zero)
        addiu $t1,$zero,2       # t1 is the number whose multiples are struck out
outer:  lbu   $t2,0($t1)
        bne   $t2,$zero,done    # it was struck out, and so were its multiples
        addu  $t3,$t1,$t1
inner:  slti  $t4,$t3,64
        beq   $t4,$zero,done
        sb    $t0,0($t3)
        addu  $t3,$t3,$t1
        j     inner
done:   addiu $t1,$t1,1
        slti  $t4,$t1,8         # a number below 64 that is not prime has a factor below 8
        bne   $t4,$zero,outer

        addiu $t1,$zero,0
count:  lbu   $t2,0($t1)
        bne   $t2,$zero,skip
        addiu $v0,$v0,1
        addu  $v1,$t1,$zero
skip:   addiu $t1,$t1,1
        slti  $t4,$t1,64
        bne   $t4,$zero,count
        break
