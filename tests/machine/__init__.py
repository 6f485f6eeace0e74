"""The machine of crates/machine/specs, its own text translated to Python and run."""
