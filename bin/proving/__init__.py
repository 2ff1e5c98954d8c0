"""The parts of `build_program`: `plan` says which crates are proved next, `course` how long the rest takes,
`kit` runs the proofs."""
