.space 4
sb $0,-1($0)
