"""The conformance suite of JBIG2: what `conformance/make` writes."""
