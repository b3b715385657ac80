"""Times mutool and gs on JBIG2 pages, over this library and over the system's.

    testing/benchmarks/dropin [--rounds N] FILE.jb2 ..

Each file has a page. A PDF file is made of each, and one of 200 pages of 8 by 1 pixels that share the symbols of the first
file that has some. Both libraries take turns, and the least processor time of N rounds (5) counts. What the program takes
on an empty page is in it. The pictures are compared.
"""
from __future__ import annotations

import argparse
import pathlib
import resource
import subprocess
import tempfile

from bindings.dropin.tests.peers import OURS, PEERS, SYSTEM, Library, Peer
from conformance.runner.embedding import SMALL, embedded_page, image_of
from conformance.runner.pdf import Image, pdf_of

MANY = 200


def drawn(library: Library, peer: Peer, pdf: pathlib.Path) -> tuple[float, bytes]:
    """The processor time of one run, and the first page that it drew."""
    with tempfile.TemporaryDirectory() as room:
        names = {"{pdf}": str(pdf), "{out}": f"{room}/%d.pbm"}
        words = [names.get(word, word) for word in peer.command.split()]
        head = ["env", f"LD_LIBRARY_PATH={library.folder}"] if library.folder else []
        before = resource.getrusage(resource.RUSAGE_CHILDREN)
        subprocess.run(head + words, check=True, stdout=subprocess.DEVNULL, stderr=subprocess.DEVNULL)
        after = resource.getrusage(resource.RUSAGE_CHILDREN)
        picture = pathlib.Path(room, "1.pbm").read_bytes()
    return after.ru_utime + after.ru_stime - before.ru_utime - before.ru_stime, picture


def compared(pdf: pathlib.Path, peer: Peer, rounds: int) -> tuple[float, float, bool]:
    """The least time over this library, that over the system's, and whether they draw the same."""
    turns = [[drawn(library, peer, pdf) for library in (OURS, SYSTEM)] for _ in range(rounds)]
    ours, theirs = zip(*turns)
    return min(ours)[0], min(theirs)[0], ours[0][1] == theirs[0][1]


def documents_of(names: list[str]) -> dict[str, list[Image]]:
    """The images of each PDF file."""
    documents = {}
    shared = b""
    for name in names:
        image = image_of(embedded_page(pathlib.Path(name).read_bytes(), 0))
        documents[pathlib.Path(name).name] = [image]
        shared = shared or image.shared
    if shared:
        documents[f"{MANY} pages over {len(shared)} bytes of globals"] = [Image(8, 1, SMALL, shared)] * MANY
    return documents


def main() -> None:
    """Prints a line for each document, and the sums."""
    parser = argparse.ArgumentParser(usage=__doc__)
    parser.add_argument("--rounds", type=int, default=5)
    parser.add_argument("files", nargs="+")
    options = parser.parse_args()
    peers = [peer for peer in PEERS if peer.name in ("mutool draw", "gs")]
    sums = {peer.name: [0.0, 0.0] for peer in peers}
    with tempfile.TemporaryDirectory() as room:
        pdf = pathlib.Path(room) / "pages.pdf"
        for name, images in documents_of(options.files).items():
            pdf.write_bytes(pdf_of(images))
            words = []
            for peer in peers:
                ours, theirs, is_same = compared(pdf, peer, options.rounds)
                other = "" if is_same else ", another picture"
                words.append(f"{peer.name} {ours:.3f} s, {theirs:.3f} s by libjbig2dec0 ({ours / theirs:.2f}){other}")
                if len(images) == 1:
                    sums[peer.name] = [sums[peer.name][0] + ours, sums[peer.name][1] + theirs]
            print(f"{name}: {'; '.join(words)}", flush=True)
    for name, (ours, theirs) in sums.items():
        print(f"all pages by {name}: {ours:.2f} s, {theirs:.2f} s by libjbig2dec0 ({ours / theirs:.2f})")


if __name__ == "__main__":
    main()
