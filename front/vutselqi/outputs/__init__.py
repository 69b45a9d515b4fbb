"""Forms of output: each module writes a report in one form."""
