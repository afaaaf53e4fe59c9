"""The modules of tools/check-runs."""
