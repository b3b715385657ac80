"""JBIG2 files as images of Pillow.

    import hayro_jbig2.pillow
    from PIL import Image

    image = Image.open("scan.jb2")

The pages are frames of mode "1", which `seek` chooses. They are read leniently, within the limit of work. One that is
incomplete gives an `IncompletePageWarning` when it is loaded, and `info["is_complete"]` is false then;
`info["passed_over"]` is how many of its own segments it lacks. A fault of the data is an OSError.
"""

from __future__ import annotations

from typing import TYPE_CHECKING, Any

from PIL import Image, ImageFile

from . import DecodeError
from ._decode import checked
from ._library import OpenFile, Reading

if TYPE_CHECKING:
    from ._library import WorkLimit

# How many units of work a page may take, and what pages share; None is no limit.
WORK_LIMIT: WorkLimit = "default"

_IDENTIFICATION = b"\x97JB2\r\n\x1a\n"


class Jbig2ImageFile(ImageFile.ImageFile):
    """A JBIG2 file, of which a page is decoded when it is loaded."""

    format = "JBIG2"
    format_description = "JBIG2 (ITU-T T.88)"
    # Of an image that was pickled, which is the page alone.
    n_frames, is_animated = 1, False
    _frame, _loaded, _min_frame = 0, True, 0
    # Older versions of Pillow have no types, or none of what a plugin needs.
    fp: Any
    info: Any
    tile: Any
    _exclusive_fp: Any
    _seek_check: Any

    def _open(self) -> None:
        data = self.fp.read()
        if not data.startswith(_IDENTIFICATION):
            raise SyntaxError("not a JBIG2 file")
        try:
            # Read once: all frames take a time in proportion to the file's length.
            self._file = OpenFile(data, Reading.LENIENT, WORK_LIMIT)
        except DecodeError as error:
            raise OSError(str(error)) from error
        if not self._file.sizes:
            raise OSError("a JBIG2 file without pages")
        self.n_frames = len(self._file.sizes)
        self.is_animated = self.n_frames > 1
        # Where Pillow has a property for it, the mode is written by another name.
        setattr(self, "_mode" if hasattr(Image.Image, "mode") else "mode", "1")
        # Nothing for Pillow's own decoders.
        self.tile = []
        self._show(0)

    def seek(self, frame: int) -> None:
        """Chooses a page, from 0. Raises EOFError where there is none, and as Image.open does where it is too large."""
        if self._seek_check(frame):
            # Image.open looks at the first page alone.
            image: Any = Image
            image._decompression_bomb_check(self._file.sizes[frame][1:])
            self._show(frame)

    def tell(self) -> int:
        """The index of the page."""
        return self._frame

    def load(self) -> Any:
        """Decodes the page, unless that is done."""
        if not self._loaded:
            try:
                page = checked(self._file.draw(self._frame, WORK_LIMIT))
            except DecodeError as error:
                raise OSError(str(error)) from error
            self.im = page.to_image().im
            self.info.update(passed_over=page.passed_over.count, is_complete=page.is_complete)
            self._loaded = True
            # Its bytes are all there, and nothing else reads it.
            if self._exclusive_fp and self.fp:
                self.fp.close()
                self.fp = None
        parent: Any = super()
        return parent.load()

    def _show(self, frame: int) -> None:
        self._frame, self._loaded = frame, False
        self._size = self._file.sizes[frame][1:]
        self.info = {}


def _accept(prefix: bytes) -> bool:
    return prefix.startswith(_IDENTIFICATION)


Image.register_open(Jbig2ImageFile.format, Jbig2ImageFile, _accept)
Image.register_extensions(Jbig2ImageFile.format, [".jb2", ".jbig2"])
