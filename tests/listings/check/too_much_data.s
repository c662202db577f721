.space 65536
.word 0
