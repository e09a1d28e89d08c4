"""The study on a cluster, of library/examples: one of two workers is ended in the midst, and no result is lost."""

import subprocess
import sys
import unittest
from importlib.util import find_spec

from stored import ROOT

NEEDS = ("distributed", "libyds")


class Cluster(unittest.TestCase):
    @unittest.skipUnless(find_spec("distributed"), "dask.distributed isn't here; on Debian: python3-distributed")
    def test_a_worker_that_is_ended(self) -> None:
        """In a process of its own, since each worker imports the script anew."""
        script = ROOT / "library" / "examples" / "cluster.py"
        ran = subprocess.run([sys.executable, str(script), "3000"], capture_output=True, timeout=600, check=False)
        lines = ran.stdout.decode().splitlines()
        self.assertEqual(len(lines), 3, ran.stderr.decode())
        self.assertEqual(lines[0], "15 of 30 parts are done, and one of 2 workers is ended")
        self.assertRegex(lines[1], r"^3000 instances: mean 1\.\d{4}, greatest \d\.\d{4}$")
        self.assertEqual(lines[2], "as without a cluster: True")


if __name__ == "__main__":
    unittest.main()
