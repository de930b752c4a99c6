"""What is looked at after a run of las-batch."""
import os
from pathlib import Path


def hidden_parts(folder: Path) -> list[str]:
    """Hidden files below a folder that a job of las-batch made: drafts, links and files that were unpacked again."""
    found = []
    for place, below, files in os.walk(folder):
        if ".las-batch" in below:
            below.remove(".las-batch")
        found += [os.path.join(place, name) for name in files
                  if name.startswith(".") and (".part" in name or ".las-" in name)]
    return sorted(found)
