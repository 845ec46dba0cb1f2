"""What the tests of whole systems share: the programs that were built, the budget that is required, and a system's two files."""
import os
import sys

HERE = os.path.dirname(os.path.abspath(__file__))
# layout.py and assembler.py of the example
sys.path.insert(0, os.path.join(HERE, "..", "examples"))
CRATES = os.path.join(HERE, "..", "crates")
RUN = os.path.join(CRATES, "run", "out", "run")
CHECK = os.path.join(CRATES, "plan_check", "out", "plan_check")
# what the last instruction of a slot can overshoot and the write-backs of all lines take; and what each message takes
REQUIRED = 90 + 64 * 10
MESSAGE = 1024


def written(folder, files, name=""):
    """Writes a plan and an image into a folder, and answers their paths."""
    paths = [os.path.join(folder, name + kind) for kind in ("plan", "image")]
    for path, content in zip(paths, files):
        with open(path, "wb") as file:
            file.write(content)
    return paths
