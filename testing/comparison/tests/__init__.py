"""Tests of the model and of its use, from the root: `python3 -m unittest discover -t . -s testing/comparison/tests`."""
