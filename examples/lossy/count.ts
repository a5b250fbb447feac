shared rounds;
rounds = rounds + 1;
