"""What tools/package is made of: manual pages, completions, and the tree of the package."""
