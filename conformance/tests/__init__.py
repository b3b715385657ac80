"""Tests of the suite's maker and of the runner, from the repository's root:

    python3 -m unittest discover -t . -s conformance/tests
"""
