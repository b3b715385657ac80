"""Tries the limit of work of the library for C on pages: what they take is enough, and any less is refused."""
