"""The example for many processes, which map one saved search."""
import random
import re
import subprocess
import sys
import tempfile
import unittest
from pathlib import Path

from shared import tearDownModule

EXAMPLE = Path(__file__).parent.parent / "examples/many_processes.py"
CHUNK = 1 << 20  # bytes


class Lines(unittest.TestCase):
    def found(self, text, *words):
        with tempfile.TemporaryDirectory() as folder:
            path = Path(folder, "text")
            path.write_bytes(text)
            ran = subprocess.run([sys.executable, EXAMPLE, path, *words], capture_output=True, text=True)
        self.assertEqual((ran.returncode, ran.stderr), (0, ""))
        return ran.stdout.splitlines()

    def test_by_hand(self):
        self.assertEqual(self.found("é fig\n\nfigs and\ra maple".encode(), "fig", "figs", "maple"),
                         ["1 3 fig", "3 0 figs", "3 11 maple"])
        self.assertEqual(self.found(b"", "fig"), [])

    def test_many_chunks(self):
        """One begins after a line that ends right there, and one in a long line."""
        chance = random.Random(7)
        lines = [b"maple".rjust(CHUNK - 1), b"fig " * (CHUNK // 2), b"fig"]
        lines += [b" ".join(chance.choices((b"fig", b"pear", b"maple"), k=chance.randint(0, 9))) for _ in range(90000)]
        wanted = [f"{number} {it.start()} {it[0].decode()}" for number, line in enumerate(lines, 1)
                  for it in re.finditer(b"fig|maple", line)]
        self.assertEqual(self.found(b"\n".join(lines), "fig", "maple"), wanted)


if __name__ == "__main__":
    unittest.main()
