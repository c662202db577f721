# ruu run FILE --limit 3
A: B:
j A
