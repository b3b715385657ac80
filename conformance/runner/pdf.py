"""Writes PDF files whose pages are JBIG2 images, with dictionaries and tables as globals that pages share."""
from __future__ import annotations

import dataclasses

# The comment says that bytes above 127 follow (ISO 32000-1, 7.5.2).
HEADING = b"%PDF-1.5\n%\xe2\xe3\xcf\xd3\n"


@dataclasses.dataclass(frozen=True)
class Image:
    """An image by its size in pixels, the segments of its stream and those of its /JBIG2Globals."""

    width: int
    height: int
    stream: bytes
    shared: bytes = b""


def stream_object(words: str, content: bytes) -> bytes:
    """A stream object with the entries `words` in its dictionary."""
    return f"<< {words} /Length {len(content)} >>\nstream\n".encode() + content + b"\nendstream"


def pdf_of(images: list[Image], scale: float = 1) -> bytes:
    """A PDF file with a page for each image, `scale` points for each pixel. Images with the same globals share one
    object."""
    contents: list[bytes] = []

    def added(content: bytes) -> int:
        contents.append(content)
        return len(contents) + 2

    pages: list[int] = []
    shared_objects: dict[bytes, int] = {}
    for image in images:
        words = "/Type /XObject /Subtype /Image /ColorSpace /DeviceGray /BitsPerComponent 1 /Filter /JBIG2Decode"
        words += f" /Width {image.width} /Height {image.height}"
        if image.shared:
            if image.shared not in shared_objects:
                shared_objects[image.shared] = added(stream_object("", image.shared))
            words += f" /DecodeParms << /JBIG2Globals {shared_objects[image.shared]} 0 R >>"
        drawn = added(stream_object(words, image.stream))
        wide, high = image.width * scale, image.height * scale
        drawing = added(stream_object("", f"q {wide} 0 0 {high} 0 0 cm /Image Do Q".encode()))
        page = f"<< /Type /Page /Parent 2 0 R /MediaBox [0 0 {wide} {high}] /Contents {drawing} 0 R"
        pages.append(added(f"{page} /Resources << /XObject << /Image {drawn} 0 R >> >> >>".encode()))
    kids = " ".join(f"{page} 0 R" for page in pages)
    catalog = [b"<< /Type /Catalog /Pages 2 0 R >>", f"<< /Type /Pages /Kids [{kids}] /Count {len(pages)} >>".encode()]
    return joined(catalog + contents)


def joined(objects: list[bytes], catalog: bytes = b"1 0 R") -> bytes:
    """A PDF file of these objects, numbered from 1, with the reference to its catalog."""
    out, places = bytearray(HEADING), []
    for number, content in enumerate(objects, 1):
        places.append(len(out))
        out += b"%d 0 obj\n" % number + content + b"\nendobj\n"
    table = b"xref\n0 %d\n0000000000 65535 f \n" % (len(objects) + 1)
    table += b"".join(b"%010d 00000 n \n" % place for place in places)
    end = b"trailer\n<< /Size %d /Root %s >>\nstartxref\n%d\n%%%%EOF\n" % (len(objects) + 1, catalog, len(out))
    return bytes(out) + table + end
