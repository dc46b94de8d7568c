"""The wrong bodies of the crates, each of which the prover must refuse."""
