# Which attack
    .word 1
