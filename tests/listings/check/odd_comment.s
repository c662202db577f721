L:	addiu	$1,$2	# café ]0;x
