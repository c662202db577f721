# A load from an address that its width does not divide.
        lw    $1,2($0)
