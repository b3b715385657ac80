"""Names of decoders; of those that a script makes, what is said where it was not run, and their versions."""
import dataclasses
import pathlib
import tempfile
import unittest

from conformance.runner.decoders import DECODERS, Decoder, decoder_of

PEER = Decoder("peer", "true {stream} {out}", package="package", maker="conformance/peers/peer")


class DecodersTest(unittest.TestCase):
    def test_a_peer_that_was_not_made(self):
        peer = dataclasses.replace(PEER, made=pathlib.Path("/nowhere/version"))
        self.assertEqual(peer.missing(), "peer, which conformance/peers/peer makes,")

    def test_a_peer_that_was_made(self):
        with tempfile.TemporaryDirectory() as folder:
            version = pathlib.Path(folder, "version")
            version.write_text("1.2\n")
            peer = dataclasses.replace(PEER, made=version)
            self.assertEqual((peer.missing(), peer.version()), (None, "1.2"))

    def test_names(self):
        for decoder in DECODERS:
            self.assertIs(decoder_of([decoder.name]), decoder)
        self.assertEqual(decoder_of(["gs"]).name, "gs")
        with self.assertRaises(ValueError):
            decoder_of(["unheard-of"])
        self.assertEqual({decoder.name for decoder in DECODERS if not decoder.package}, {"jbig2-decode", "drop-in"})
        self.assertEqual(decoder_of(["drop-in"]).version(), "this tree")


if __name__ == "__main__":
    unittest.main()
