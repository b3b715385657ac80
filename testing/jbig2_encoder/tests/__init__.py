"""Tests of the encoder: `python3 -m unittest discover -t . -s testing/jbig2_encoder/tests` at the repository's root."""
