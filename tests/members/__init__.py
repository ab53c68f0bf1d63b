"""Members of a group, simulated and killed: README.md."""
