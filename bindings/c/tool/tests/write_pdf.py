"""Writes a PDF file of the pages of T.88 H.1, of which two share globals.

write_pdf.py FILE
"""
import pathlib
import sys

from conformance.runner.embedding import embedded_page, image_of
from conformance.runner.pdf import pdf_of

ROOT = pathlib.Path(__file__).resolve().parents[4]
BOOK = (ROOT / "crates" / "jbig2_decode" / "data" / "t88-h1.jb2").read_bytes()
images = [image_of(embedded_page(BOOK, index)) for index in (1, 1, 2, 0)]
pathlib.Path(sys.argv[1]).write_bytes(pdf_of(images))
