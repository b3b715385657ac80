"""Which library the build takes, and how it names the wheel."""

import os
import pathlib
import unittest
from unittest import mock

import hayro_jbig2_build as build


def on(system, processor, older=False, **variables):
    """Whether the portable C is taken there."""
    kept = {name: value for name, value in os.environ.items() if name not in ("PROCESSOR", "HAYRO_JBIG2_PORTABLE")}
    with mock.patch.multiple(
        build, is_older_processor=lambda: older, sys=mock.Mock(platform=system, maxsize=2**63 - 1)
    ), mock.patch("platform.machine", return_value=processor), mock.patch.dict(os.environ, {**kept, **variables}, clear=True):
        return build.is_portable()


class Build(unittest.TestCase):
    def test_which_library(self):
        self.assertFalse(on("linux", "x86_64"))
        self.assertFalse(on("linux", "aarch64"))
        self.assertFalse(on("linux", "riscv64", PROCESSOR="aarch64"))
        self.assertTrue(on("linux", "riscv64"))
        self.assertTrue(on("darwin", "arm64"))
        self.assertTrue(on("win32", "AMD64"))
        self.assertTrue(on("linux", "x86_64", older=True))
        self.assertTrue(on("linux", "x86_64", HAYRO_JBIG2_PORTABLE="1"))

    def test_the_wheel_s_platform(self):
        other = b"\x7fELF\x02".ljust(18, b"\0") + (243).to_bytes(2, "little")
        with mock.patch.dict(os.environ, {"PROCESSOR": "riscv64"}):
            self.assertEqual(build.platforms_of(other), ["linux_riscv64"])
        with mock.patch.dict(os.environ), mock.patch("sysconfig.get_platform", return_value="macosx-11.0-arm64"):
            os.environ.pop("PROCESSOR", None)
            self.assertEqual(build.platforms_of(b"\xcf\xfa\xed\xfe".ljust(64, b"\0")), ["macosx_11_0_arm64"])

    def test_the_folder_alone(self):
        with mock.patch.object(build, "ROOT", pathlib.Path("/nonexistent/python")), mock.patch.object(
            build, "COPIES", pathlib.Path("/nonexistent/python/native")
        ), self.assertRaisesRegex(RuntimeError, "pip before 21.3"):
            build.shared_library(True)

    def test_an_empty_name_is_no_compiler(self):
        with mock.patch.dict(os.environ, {"CC": " "}), mock.patch("subprocess.run", side_effect=FileNotFoundError):
            with self.assertRaisesRegex(RuntimeError, r"there is no C compiler \(cc\)"):
                build.shared_library(True)

    def test_no_compiler(self):
        with mock.patch.dict(os.environ, {"CC": "/no/such/cc"}), self.assertRaisesRegex(RuntimeError, "there is no C compiler"):
            build.shared_library(True)


if __name__ == "__main__":
    unittest.main()
