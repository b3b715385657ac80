"""Generic regions (6.2) and refinements (6.3), pixel by pixel."""
from .bitmap import Bitmap

# A context's pixels, the highest bit first; a number n stands for adaptive pixel n + 1.
PIXELS = (
    (3, (-1, -2), (0, -2), (1, -2), 2, 1, (-2, -1), (-1, -1), (0, -1), (1, -1), (2, -1), 0, (-4, 0), (-3, 0), (-2, 0),
     (-1, 0)),
    ((-1, -2), (0, -2), (1, -2), (2, -2), (-2, -1), (-1, -1), (0, -1), (1, -1), (2, -1), 0, (-3, 0), (-2, 0), (-1, 0)),
    ((-1, -2), (0, -2), (1, -2), (-2, -1), (-1, -1), (0, -1), (1, -1), 0, (-2, 0), (-1, 0)),
    ((-3, -1), (-2, -1), (-1, -1), (0, -1), (1, -1), 0, (-4, 0), (-3, 0), (-2, 0), (-1, 0)),
)
EXTENDED = (10, 3, 1, 4, 8, 11, 2, (-1, -1), (0, -1), (1, -1), 5, 9, 7, 6, 0, (-1, 0))
NOMINAL = (((3, -1), (-3, -1), (2, -2), (-2, -2)), ((3, -1),), ((2, -1),), ((2, -1),))
TYPICAL = (0x9B25, 0x0795, 0x00E5, 0x0195)
# Of a refinement, the highest bit first: pixels of the region, then of the reference.
REFINED = ((0, (0, -1), (1, -1), (-1, 0)), ((-1, -1), (0, -1), (1, -1), (-1, 0)))
REFERENCE = (
    (1, (0, -1), (1, -1), (-1, 0), (0, 0), (1, 0), (-1, 1), (0, 1), (1, 1)),
    ((0, -1), (-1, 0), (0, 0), (1, 0), (0, 1), (1, 1)),
)
REFINED_TYPICAL = (0x10, 0x08)
AROUND = [(x, y) for y in (-1, 0, 1) for x in (-1, 0, 1)]
# Adaptive pixels reach 128 pixels to each side, those of patterns 255 to the left.
MARGIN = 256


def settled(pixels, adaptive):
    """The places of a context with the adaptive pixels in theirs."""
    return [adaptive[pixel] if isinstance(pixel, int) else pixel for pixel in pixels]


class Generic:
    """How a generic bitmap is coded: template, adaptive pixels, prediction, and pixels that are skipped."""

    def __init__(self, template, adaptive, typical=False, extended=False, skipped=None):
        self.template = template
        self.places = settled(EXTENDED if extended else PIXELS[template], adaptive)
        self.typical = typical
        self.skipped = skipped

    def decode(self, work, coder, contexts, width, height, is_cut=False):
        """The bitmap, by a coder and its contexts; of data that is cut off the rows that are whole."""
        bitmap = Bitmap(work, width, height)
        if not width:
            return bitmap
        blank = bytearray(width + 2 * MARGIN)
        rows = []
        same = 0
        for y in range(height):
            if self.typical:
                work.decide(1)
                same ^= coder.decide(contexts, TYPICAL[self.template])
            rows.append(bytearray(rows[-1] if rows and same else blank))
            if not same:
                self.decode_row(work, coder, contexts, rows, y)
            if is_cut and coder.is_past_end:
                return bitmap.part(work, 0, 0, width, y)
            bitmap.rows[y] = rows[y][MARGIN : MARGIN + width]
        return bitmap

    def decode_row(self, work, coder, contexts, rows, y):
        row = rows[y]
        width = len(row) - 2 * MARGIN
        work.decide(width)
        taps = [(rows[y + down], right + MARGIN) for right, down in self.places if y + down >= 0]
        shifts = [len(self.places) - 1 - at for at, (_, down) in enumerate(self.places) if y + down >= 0]
        for x in range(width):
            if self.skipped and self.skipped[y][x]:
                continue
            context = 0
            for (line, right), shift in zip(taps, shifts):
                if line[x + right]:
                    context |= 1 << shift
            row[x + MARGIN] = coder.decide(contexts, context)


class Refinement:
    """How a refinement is coded: template, adaptive pixels and prediction."""

    def __init__(self, template, adaptive, typical=False):
        self.template = template
        self.above = settled(REFINED[template], adaptive)
        self.below = settled(REFERENCE[template], adaptive)
        self.typical = typical

    def decode(self, work, coder, contexts, size, reference, shift, is_cut=False):
        """A bitmap of that size, whose reference lies `shift` to the right of it and below it; of data that is cut off the
        rows that are whole."""
        bitmap = Bitmap(work, *size)
        dx, dy = shift
        same = 0
        for y in range(bitmap.height if bitmap.width else 0):
            if self.typical:
                work.decide(1)
                same ^= coder.decide(contexts, REFINED_TYPICAL[self.template])
            work.decide(bitmap.width)
            for x in range(bitmap.width):
                colours = same and {reference.pixel(x - dx + i, y - dy + j) for i, j in AROUND}
                if colours and len(colours) == 1:
                    bitmap.rows[y][x] = colours.pop()
                    continue
                context = 0
                for i, j in self.above:
                    context = context << 1 | bitmap.pixel(x + i, y + j)
                for i, j in self.below:
                    context = context << 1 | reference.pixel(x - dx + i, y - dy + j)
                bitmap.rows[y][x] = coder.decide(contexts, context)
            if is_cut and coder.is_past_end:
                return bitmap.part(work, 0, 0, bitmap.width, y)
        return bitmap
