"""What the gate built; and mutants and harmless rewrites: what the prover and the tests notice. Of these two the gate
has the lists' check, the others are long runs."""
