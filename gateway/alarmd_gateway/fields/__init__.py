"""Sources of samples, and where outputs are written back."""
