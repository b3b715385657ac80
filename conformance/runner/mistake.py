"""What the caller has to mend, said in words."""


class Mistake(ValueError):
    """Its text says what is wrong with the call, or with what it names."""
