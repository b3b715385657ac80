"""An encoder of JBIG2 (ITU-T T.88) that knows the picture of what it writes. It needs the standard library alone."""
