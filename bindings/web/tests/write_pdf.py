"""Writes PDF files of several JBIG2 images, in a plain form and in one that PDF allows too and few files have."""
import zlib

from conformance.runner.pdf import joined


class Objects:
    """The objects of a file that is being written."""

    def __init__(self):
        self.contents = []

    def add(self, content):
        """Adds an object, and returns a reference to it."""
        self.contents.append(content)
        return b"%d 0 R" % len(self.contents)

    def file(self, catalog):
        """The file, with a table of where its objects stand."""
        return joined(self.contents, catalog)


def stream_of(words, data):
    return b"<< %s /Length %d >>\nstream\n%s\nendstream" % (words, len(data), data)


def plain_image(objects, words, stream, shared):
    """An image as most writers have it."""
    parameters = b""
    if shared:
        parameters = b"/DecodeParms << /JBIG2Globals %s >>" % objects.add(stream_of(b"", shared))
    return objects.add(stream_of(b"%s /Filter /JBIG2Decode %s" % (words, parameters), stream))


def packed_image(objects, words, stream, shared):
    """An image that is packed by Flate too, with parameters and a length that stand elsewhere, and lines that end in CR LF."""
    parameters = b"null"
    if shared:
        packed = stream_of(b"/Filter /FlateDecode", zlib.compress(shared))
        parameters = objects.add(b"<</JBIG2Globals %s>>" % objects.add(packed))
    data = zlib.compress(stream)
    length = objects.add(b"%d" % len(data))
    words += b"/DecodeParms[null %s]/Filter[/FlateDecode/JBIG2Decode]/Length %s" % (parameters, length)
    return objects.add(b"<<%s>>\r\nstream\r\n%s\r\nendstream" % (words, data))


def pdf_of_images(images, packed):
    """A file with a page for each image: its width, its height, and its streams as `stream` and `shared`."""
    objects = Objects()
    add_image = packed_image if packed else plain_image
    tree, kids = objects.add(b""), []
    for width, height, streams in images:
        words = b"/Type /XObject /Subtype /Image /Width %d /Height %d" % (width, height)
        words += b" /ColorSpace /DeviceGray /BitsPerComponent 1"
        image = add_image(objects, words, streams.stream, streams.shared)
        drawing = objects.add(stream_of(b"", b"q %d 0 0 %d 0 0 cm /Image Do Q" % (width, height)))
        box = b"/MediaBox [0 0 %d %d] /Contents %s" % (width, height, drawing)
        page = b"<< /Type /Page /Parent %s %s /Resources << /XObject << /Image %s >> >> >>" % (tree, box, image)
        kids.append(objects.add(page))
    objects.contents[0] = b"<< /Type /Pages /Kids [%s] /Count %d >>" % (b" ".join(kids), len(kids))
    return objects.file(objects.add(b"<< /Type /Catalog /Pages %s >>" % tree))
