"""Files for `damage.py`: what the encoders make up, the example of T.88 H.1, and given ones, cut into segments."""
import dataclasses
import os
import random

from testing.comparison.compare import random_file
from testing.comparison.root import ROOT
from testing.comparison.symbols import random_document
from conformance.runner.segments import cut, in_random_access
from testing.jbig2_encoder.bitmap import Bitmap
from testing.jbig2_encoder.document import Document
from testing.jbig2_encoder.framing import GENERIC
from testing.jbig2_encoder.generic import GenericForm, generic_data, row_count

EXAMPLE = os.path.join(ROOT, "crates", "jbig2_decode", "data", "t88-h1.jb2")
REGIONS = (["generic"], ["refinement"], ["halftone"])
SYMBOLS = "coder prefix refined aggregates tables more".split()


@dataclasses.dataclass
class Sample:
    """A file: its header and its segments. `is_common` says that jbig2dec is expected to draw it."""

    name: str
    header: bytes
    segments: list
    is_common: bool = False

    def bytes(self):
        return self.header + b"".join(self.segments)

    @property
    def pages(self):
        """How many page information segments there are, at least 1."""
        return max(1, sum(part[4:5] == b"\x30" for part in self.segments))


def coded_rows(chance):
    """A page with a picture by T.6; half of the regions have a length that is not written (7.2.7)."""
    bitmap = Bitmap(chance.randrange(1, 90), chance.randrange(1, 40))
    bitmap.rows = [[int(chance.random() < 0.3) for _ in row] for row in bitmap.rows]
    data = generic_data(bitmap, GenericForm(mmr=True, ends_block=chance.random() < 0.5))
    hides_length = chance.random() < 0.5
    if hides_length:
        data += row_count(bitmap.height, True)
    document = Document()
    page = document.start_page(bitmap.width, bitmap.height)
    page.draw(GENERIC, bitmap, data, hides_length=hides_length)
    page.end()
    document.end_file()
    return document.sequential()


def made_up(chance, turn):
    """A file of each kind in turn; every fourth in random access."""
    kind = turn % (len(REGIONS) + len(SYMBOLS) + 1)
    if kind < len(REGIONS):
        name, data = REGIONS[kind][0], random_file(chance, REGIONS[kind])
    elif kind < len(REGIONS) + len(SYMBOLS):
        name = SYMBOLS[kind - len(REGIONS)]
        data = random_document(chance, name).finished()
    else:
        name, data = "T.6", coded_rows(chance)
    sample = Sample(name, *cut(data), is_common=name not in ("more", "T.6"))
    if turn % 4 == 3:
        sample.name += ", random access"
        sample.header, sample.segments = in_random_access(sample.header, sample.segments)
    return sample


def own_corpus(count, seed):
    """This number of files that are made up, and the example of T.88 H.1."""
    chance = random.Random(seed)
    samples = [made_up(chance, turn) for turn in range(count)]
    return samples + given_corpus([EXAMPLE])


def given_corpus(names):
    samples = []
    for name in names:
        with open(name, "rb") as file:
            samples.append(Sample(name, *cut(file.read()), is_common=True))
    return samples
