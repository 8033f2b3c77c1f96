"""A crate beside the repository's, in a copy of these: its sources stand as texts, `NAME.rt.txt`, since it isn't proved."""
import shutil
from pathlib import Path

TOP = Path(__file__).resolve().parent.parent
# The toolchain's libraries that such a crate may use, beside all libraries of the repository.
OF_TOOLCHAIN = ["json", "serde_json"]


def libraries():
    """The names of the repository's libraries. No crate stands on a program."""
    lines = [it.partition("#")[0] for it in (TOP / "crates.txt").read_text().splitlines()]
    names = [it.partition(":")[0].strip() for it in lines if ":" in it]
    return [it for it in names if (TOP / "crates" / it / "src/lib.rt").is_file()]


def put(copy, name, texts):
    """Copies the crates, puts the crate of these texts beside them, and gives its folder."""
    shutil.copytree(TOP / "crates", copy / "crates", ignore=shutil.ignore_patterns("out"))
    listed = (TOP / "crates.txt").read_text()
    (copy / "crates.txt").write_text(f"{listed}\n{name}: {' '.join([*libraries(), *OF_TOOLCHAIN])}\n")
    if (TOP / "HANDLES").is_file():
        shutil.copy2(TOP / "HANDLES", copy)
    crate = copy / "crates" / name
    for text in texts.rglob("*.rt.txt"):
        source = crate / "src" / text.relative_to(texts).with_suffix("")
        source.parent.mkdir(parents=True, exist_ok=True)
        shutil.copy2(text, source)
    return crate
