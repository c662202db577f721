.space 8(
