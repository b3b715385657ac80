"""Puts the pages of JBIG2 files into PDF files, draws these by the command hayro-jbig2, and compares the bitmaps with
those that jbig2dec draws of the files themselves. It reports where Poppler draws another bitmap of the PDF file.

    pdf.py FILE.jb2 ..

Each FILE is sequential and has one page. Two PDF files are made of it: one by `pdf_of`, with dictionaries and tables in
/JBIG2Globals, and one by pdftocairo of Poppler from that, which takes the image's data over as they are.
Needs make and libqpdf (Debian's libqpdf-dev), jbig2dec, and pdfimages and pdftocairo (Debian's poppler-utils).
"""
import pathlib
import subprocess
import sys
import tempfile

from testing.comparison.root import ROOT
from conformance.runner.embedding import embedded_page, image_of
from conformance.runner.pdf import pdf_of
from conformance.runner.pictures import pictures_of


def bitmap(path):
    """The picture of a PBM file."""
    return pictures_of(path.read_bytes())[0]


def drawn_of(pdf, room):
    """The bitmap that we draw of the image of a PDF file, and the one that Poppler draws."""
    room.mkdir()
    subprocess.run([pathlib.Path(ROOT, "bindings/c/out/hayro-jbig2"), pdf, "-o", room / "ours.pbm"], check=True)
    subprocess.run(["pdfimages", pdf, room / "theirs"], check=True, stderr=subprocess.DEVNULL)
    return bitmap(room / "ours.pbm"), bitmap(room / "theirs-000.pbm")


def main():
    if len(sys.argv) < 2:
        sys.exit(__doc__)
    subprocess.run(["make", "--quiet", "-C", pathlib.Path(ROOT, "bindings", "c")], check=True, stdout=subprocess.DEVNULL)
    wrong = 0
    for file in map(pathlib.Path, sys.argv[1:]):
        with tempfile.TemporaryDirectory() as folder:
            room = pathlib.Path(folder)
            written, taken_over, meant = room / "written.pdf", room / "cairo.pdf", room / "meant.pbm"
            subprocess.run(["jbig2dec", "-o", meant, file], check=True, stderr=subprocess.DEVNULL)
            written.write_bytes(pdf_of([image_of(embedded_page(file.read_bytes(), 0))], scale=1 / 4))
            subprocess.run(["pdftocairo", "-pdf", written, taken_over], check=True, stderr=subprocess.DEVNULL)
            for pdf in (written, taken_over):
                if b"JBIG2Decode" not in pdf.read_bytes():
                    sys.exit(f"{pdf.name} of {file.name} has no JBIG2 image")
                ours, theirs = drawn_of(pdf, room / pdf.stem)
                same = ours == bitmap(meant)
                wrong += not same
                note = "" if ours == theirs else ", another by Poppler"
                print(f"{file.name} {pdf.stem}: {'same' if same else 'different'}{note}")
    sys.exit(1 if wrong else 0)


if __name__ == "__main__":
    main()
