"""As documents.c, by the package of bindings/python/: globals that all threads of a pool share.

usage: documents_pool.py THREADS PAGES GLOBALS STREAM OUT

Each tenth page is compared: that holds the interpreter's lock, which decoding doesn't.
"""
from __future__ import annotations

import pathlib
import sys
import time
from concurrent.futures import ThreadPoolExecutor

import hayro_jbig2


def main() -> None:
    """Prints the seconds that passed and those of the processor, and writes the page."""
    threads, pages = (int(word) for word in sys.argv[1:3])
    shared, stream = (pathlib.Path(name).read_bytes() for name in sys.argv[3:5])
    began, used = time.monotonic(), time.process_time()
    with ThreadPoolExecutor(threads) as pool:
        common = hayro_jbig2.Globals(shared)
        first = hayro_jbig2.decode(stream, globals=common)
        rows = bytes(first.rows)

        def is_first(index: int) -> bool:
            page = hayro_jbig2.decode(stream, globals=common)
            # Bytes are compared much faster than a memoryview.
            return index % 10 != 0 or bytes(page.rows) == rows

        if not all(pool.map(is_first, range(1, pages))):
            sys.exit("another page")
    print(f"{time.monotonic() - began:.6f} {time.process_time() - used:.6f}")
    pathlib.Path(sys.argv[5]).write_bytes(first.to_pbm())


if __name__ == "__main__":
    main()
