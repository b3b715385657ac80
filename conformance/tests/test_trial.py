"""Verdicts on programs that are known to be right, wrong and worse."""
import pathlib
import sys
import tempfile
import time
import unittest

from conformance.runner.decoders import Decoder, decoder_of
from conformance.runner.limits import Limits
from conformance.runner.pictures import plain
from conformance.runner.trial import Verdict, tried
from conformance.tests.small_suite import CROSS, RING, of_numbers, written
from testing.error_texts import TEXTS

# Python may take long to start, on a slow and busy computer.
LIMITS, SHORT = Limits(seconds=60), Limits(seconds=1)
# Seconds that nothing waits for to the end.
LONG = 600
END = TEXTS["Parse(UnexpectedEof)"]
FAKE = f"""#!{sys.executable}
import sys
sys.exit("error: another" if "--strict" in sys.argv else {"error: " + END!r})
"""


def script(text: str) -> Decoder:
    """A decoder that is a line of Python, with the file's name in `name` and the picture's in `out`."""
    head = "import os, sys; name, out = sys.argv[1:3]; put = lambda data: open(out, 'wb').write(data); "
    return decoder_of([sys.executable, "-c", head + text, "{in}", "{out}"])


class TrialTest(unittest.TestCase):
    @classmethod
    def setUpClass(cls):
        folder = tempfile.TemporaryDirectory()
        cls.addClassCleanup(folder.cleanup)
        cls.samples = written(pathlib.Path(folder.name))

    def verdict(self, decoder: Decoder, name: str = "sequential", limits: Limits = LIMITS) -> Verdict:
        return tried(decoder, self.samples[name], limits).verdict

    def test_verdicts(self):
        cross = of_numbers(list(CROSS), 9).pbm
        texts = {
            f"put({cross!r})": Verdict.RIGHT,
            f"put({cross!r}); sys.exit(3)": Verdict.RIGHT,
            f"put({of_numbers(list(RING), 3).pbm!r})": Verdict.WRONG,
            f"put({plain(9, 3, 1).pbm!r})": Verdict.NOTHING,
            "pass": Verdict.NOTHING,
            "sys.exit('no such form')": Verdict.REFUSED,
            "put(b'text'); sys.exit(1)": Verdict.REFUSED,
            "os.kill(os.getpid(), 11)": Verdict.CRASH,
            "bytearray(1 << 40)": Verdict.REFUSED,
            "os.mkdir(out)": Verdict.NOTHING,
        }
        for text, verdict in texts.items():
            with self.subTest(text[:40]):
                self.assertIs(self.verdict(script(text)), verdict)

    def test_a_decoder_that_goes_on_and_on(self):
        self.assertIs(self.verdict(script("exec('while True: pass')"), limits=SHORT), Verdict.LATE)

    def test_a_decoder_that_waits_for_a_process_of_its_own(self):
        began = time.monotonic()
        self.assertIs(self.verdict(script(f"os.system('sleep {LONG}')"), limits=SHORT), Verdict.LATE)
        self.assertLess(time.monotonic() - began, LONG / 2)

    def test_an_output_without_end(self):
        decoder = decoder_of(["sh", "-c", "exec yes", "{in}"])
        self.assertIs(self.verdict(decoder), Verdict.LATE)

    def test_streams_and_sizes_as_in_a_pdf_file(self):
        text = "import sys; sys.exit(' '.join([str(len(open(n, 'rb').read())) for n in sys.argv[1:3]] + sys.argv[3:]))"
        decoder = decoder_of([sys.executable, "-c", text, "{stream}", "{shared}", "{width}", "{height}"])
        shared = self.samples["shared"].page
        messages = [tried(decoder, self.samples[name], LIMITS).message for name in ("shared", "second")]
        lengths = f"{len(shared.stream)} {len(shared.shared)}"
        self.assertEqual(messages, [f"{lengths} 9 3", f"{len(self.samples['second'].page.stream)} 0 3 3"])

    def test_standard_output_and_the_page(self):
        text = f"import sys; sys.stdout.buffer.write({of_numbers(list(RING), 3).pbm!r} if sys.argv[2] == '1' else b'')"
        decoder = decoder_of([sys.executable, "-c", text, "{in}", "{page}"])
        self.assertIs(self.verdict(decoder, "second"), Verdict.RIGHT)
        self.assertIs(self.verdict(decoder), Verdict.NOTHING)

    def test_page_of_an_output_of_several(self):
        both = of_numbers(list(CROSS), 9).pbm + of_numbers(list(RING), 3).pbm
        self.assertIs(self.verdict(script(f"put({both!r})"), "second"), Verdict.RIGHT)

    def test_globals_are_handed_in_where_there_are_some(self):
        text = "import sys; sys.exit('%d words' % len(sys.argv))"
        decoder = decoder_of([sys.executable, "-c", text, "{globals}", "{in}"])
        names = ("embedded", "shared", "sequential")
        messages = [tried(decoder, self.samples[name], LIMITS).message for name in names]
        self.assertEqual(messages, ["2 words", "3 words", "2 words"])

    def test_any_answer_will_do_where_the_manifest_says_so(self):
        for text, allowed in (("sys.exit(1)", True), ("pass", True), ("os.abort()", False)):
            self.assertIs(tried(script(text), self.samples["cut-off"], LIMITS).is_allowed, allowed)

    def test_answers_of_both_readings(self):
        with tempfile.TemporaryDirectory() as folder:
            program = pathlib.Path(folder, "fake")
            program.write_text(FAKE)
            program.chmod(0o700)
            fake = Decoder("fake", f"{program} {{in}}", strict="--strict")
            outcomes = [tried(fake, self.samples[name], LIMITS) for name in ("cut-off", "sequential")]
        self.assertEqual(outcomes[0].fault, f"strict: another, not {END}")
        self.assertTrue(outcomes[1].fault.startswith(f"lenient: {END}, not picture; strict: another"))

    def test_a_fault_has_no_control_characters(self):
        command = f"{sys.executable} -c \"import sys; sys.exit('error: a\\tb\\x1b')\" {{in}}"
        fault = tried(Decoder("fake", command, strict="-I"), self.samples["sequential"], LIMITS).fault
        self.assertTrue(fault.startswith("lenient: a b , not picture"), fault)


if __name__ == "__main__":
    unittest.main()
