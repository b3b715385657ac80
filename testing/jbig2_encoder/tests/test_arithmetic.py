"""The arithmetic encoder beside the test sequence of T.88, H.2."""
import unittest

from testing.jbig2_encoder.arithmetic import ArithmeticEncoder, Procedures

DECISIONS = "00020051 000000C0 0352872A AAAAAAAA 82C02000 FCD79EF6 BF7FED90 4F46A3BF"
CODED = "84C73BFC E1A14304 02200000 410DBB86 F4317FFF 88FF3747 1ADB6ADF FFAC"


class Recorder:
    """Stands in for the encoder and keeps the contexts that decisions are made in."""

    def __init__(self):
        self.places = []

    def decide(self, contexts, context, bit):
        self.places.append((context, bit))


class ArithmeticTest(unittest.TestCase):
    def test_sequence_of_the_standard(self):
        encoder, contexts = ArithmeticEncoder(), {}
        for byte in bytes.fromhex(DECISIONS):
            for place in range(7, -1, -1):
                encoder.decide(contexts, 0, byte >> place & 1)
        self.assertEqual(encoder.finished(), bytes.fromhex(CODED))

    def test_integers(self):
        largest = (4436, "0" + "1" * 5 + "0" * 32)
        for value, bits in ((0, "0000"), (-3, "1011"), (None, "1000"), (4, "0100000"), (-19, "1101111"), largest):
            with self.subTest(value=value):
                recorder = Recorder()
                Procedures(recorder).integer("IADT", value)
                self.assertEqual("".join(str(bit) for _, bit in recorder.places), bits)
                self.assertEqual(recorder.places[0][0], 1)
                self.assertTrue(all(context < 512 for context, _ in recorder.places))

    def test_symbol_ids(self):
        recorder = Recorder()
        Procedures(recorder).symbol_id(5, 3)
        self.assertEqual(recorder.places, [(1, 1), (3, 0), (6, 1)])


if __name__ == "__main__":
    unittest.main()
