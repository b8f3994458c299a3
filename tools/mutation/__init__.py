"""The parts of tools/mutants. Its --help describes mutants and how they are tried."""
