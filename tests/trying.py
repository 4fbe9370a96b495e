"""What tests/running and tests/trials share: sources beside the crates that the kit builds without a proof (`rt try`, which looks at each access of memory and
each overflow as it runs), in a folder of its own, so that nothing is written in this one. Their files aren't named .rt, as those are that the gate proves."""
import shutil
import subprocess
import tempfile
from pathlib import Path

ROOT = Path(__file__).resolve().parent.parent
SECONDS = 900


def copied(top, name, below, sources):
    """A repository of the sources of the crates, and these as one of them."""
    for crate in (ROOT / "crates").iterdir():
        for part in ("src", "specs", "proofs"):
            if (crate / part).is_dir():
                shutil.copytree(crate / part, top / "crates" / crate.name / part)
    (top / f"crates/{name}/src").mkdir(parents=True)
    for source in sources.glob("*.rattle"):
        shutil.copy(source, top / f"crates/{name}/src" / f"{source.stem}.rt")
    shutil.copy(ROOT / "HANDLES", top)
    (top / "crates.txt").write_text((ROOT / "crates.txt").read_text() + f"{name}: {below}\n")
    return top / "crates" / name


def tried(name, below, sources, *words):
    """What `rt try` says of sources that stand on these crates."""
    with tempfile.TemporaryDirectory() as top:
        command = ["rt", "try", *words, "--seconds", "600"]
        return subprocess.run(command, cwd=copied(Path(top), name, below, sources), stdin=subprocess.DEVNULL, capture_output=True, text=True, timeout=SECONDS)
