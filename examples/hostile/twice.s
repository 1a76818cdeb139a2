# Which attack
    .word 4
