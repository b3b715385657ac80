"""A decoder in plain Python after docs/FORMAT.md, for comparisons: slow, small, and written apart from the library."""
