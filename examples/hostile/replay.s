# Which attack
    .word 2
