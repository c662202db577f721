L: M: mul $1
