"""Tests of the trials of the limit of work, from the repository's root:

    python3 -m unittest discover -t . -s testing/limits/tests
"""
