"""The examples of the README print what it says."""
import doctest
import pathlib
import unittest

README = pathlib.Path(__file__).resolve().parents[1] / "README.md"


class Readme(unittest.TestCase):
    def test_its_examples(self) -> None:
        failed, attempted = doctest.testfile(str(README), module_relative=False, encoding="utf-8")
        self.assertEqual(failed, 0)
        self.assertGreaterEqual(attempted, 5)


if __name__ == "__main__":
    unittest.main()
