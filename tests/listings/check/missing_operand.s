        addu    $t0,$t1,
