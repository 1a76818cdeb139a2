# Which attack
    .word 3
