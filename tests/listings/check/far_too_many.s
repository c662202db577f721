x:	jr	$ra , $t0,$t1	# three
