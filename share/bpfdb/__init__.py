"""bpfdb for those who drive it by Python: what its shell, its adapter for editors and their parts have in common."""
