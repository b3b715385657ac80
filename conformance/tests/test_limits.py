"""Runs under limits: which folder has what they write."""
import unittest
from collections import namedtuple
from unittest import mock

from conformance.runner.limits import MOST_OUTPUT, folder_in_memory


class LimitsTest(unittest.TestCase):
    def test_files_are_in_memory_where_there_is_room(self):
        usage = namedtuple("usage", "free")
        for free, folder in ((MOST_OUTPUT, None), (MOST_OUTPUT + 1, "/dev/shm")):
            with mock.patch("shutil.disk_usage", return_value=usage(free)), mock.patch("os.access", return_value=True):
                self.assertEqual(folder_in_memory(MOST_OUTPUT), folder)
        with mock.patch("os.access", return_value=False):
            self.assertIsNone(folder_in_memory(0))


if __name__ == "__main__":
    unittest.main()
