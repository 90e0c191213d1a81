"""The layout of `rt fmt`, for the scripts crates/*/make: they write a text in any layout, and what they keep is what `rt fmt` makes
of it.
"""
import subprocess
import sys
import tempfile
from pathlib import Path

CRATES = Path(__file__).resolve().parent.parent / "crates"


def laid(files):
    """the files, {path below crates/: text}, as `rt fmt` lays them out"""
    paths = {path: Path(path).resolve().relative_to(CRATES) if Path(path).is_absolute() else Path(path) for path in files}
    with tempfile.TemporaryDirectory() as place:
        top = Path(place)
        crates = sorted({path.parts[0] for path in paths.values()})
        (top / "crates.txt").write_text("".join(f"{crate}:\n" for crate in crates))
        for crate in crates:
            (top / "crates" / crate / "src").mkdir(parents=True)
            (top / "crates" / crate / "src/lib.rt").write_text("")
        for path, below in paths.items():
            (top / "crates" / below).parent.mkdir(parents=True, exist_ok=True)
            (top / "crates" / below).write_text(files[path])
        for crate in crates:
            done = subprocess.run(["rt", "fmt"], cwd=top / "crates" / crate, capture_output=True, text=True)
            if done.returncode:
                sys.exit(f"{crate}: `rt fmt`: {done.stdout}{done.stderr}")
        return {path: (top / "crates" / below).read_text() for path, below in paths.items()}
