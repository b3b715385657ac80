"""Runs decoders on the files of the suite and compares what they draw with the expected pictures."""
