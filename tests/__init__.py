"""What checks the program: golden files, the scripts that write them, comparisons, faults and mutants."""
