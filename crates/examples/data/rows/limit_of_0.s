# ruu run FILE --limit 0
break
