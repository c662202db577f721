LW $t0 , ( $sp )
break
