	j # where to?
