"""Makes docs/capture.png, the page that giop-capture makes of examples/bank.pcap, as Chromium shows it.

    python3 -m scripts.screenshot [OUT.png]
"""
from __future__ import annotations

import os
import subprocess
import sys
import tempfile

from scripts.browser import browser

ROOT = os.path.dirname(os.path.dirname(os.path.realpath(__file__)))
PICTURE = os.path.join(ROOT, "docs", "capture.png")
RECORDING, TYPES = "examples/bank.pcap", "tests/cases/trace/bank.types"
# how large the window is: as high as the page
WIDTH, LEAST = 1280, 600


def screenshot(to: str) -> None:
    """Writes the picture to a file."""
    with tempfile.TemporaryDirectory() as folder, browser() as shown:
        page = os.path.join(folder, "bank.html")
        subprocess.run([os.path.join(ROOT, "giop-capture"), RECORDING, "--types", TYPES, "--page", page], cwd=ROOT, check=True)
        shown.size(WIDTH, LEAST)
        shown.is_dark(False)
        shown.open(page)
        shown.size(WIDTH, int(shown.value("document.documentElement.scrollHeight")))
        with open(to, "wb") as file:
            file.write(shown.picture())


if __name__ == "__main__":
    screenshot(sys.argv[1] if len(sys.argv) > 1 else PICTURE)
