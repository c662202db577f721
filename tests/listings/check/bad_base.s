sw $1,4( $tt )
