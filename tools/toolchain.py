"""A toolchain of links to the machine's, in which some files are others: so `rt` does what it can't be asked for by a flag."""
import shutil
from pathlib import Path

# rt takes the folder that it lies in for that of the toolchain, so its own files are copied.
COPIED = {"bin/rt", "bin/rtlib.py"}


def of_machine():
    """The folder of the machine's toolchain, or None where there is no command rt."""
    found = shutil.which("rt")
    return Path(found).resolve().parent.parent if found else None


def linked(machines, folder, scripts):
    """Makes the folder a toolchain of links to the machine's, and gives its rt. The scripts, texts for /bin/sh by their paths
    in a toolchain, stand there in place of the machine's files."""
    link_all(machines, folder, COPIED | scripts.keys())
    for path in COPIED:
        shutil.copy2(machines / path, folder / path)
    for path, text in scripts.items():
        (folder / path).write_text(f"#!/bin/sh\n{text}\n", encoding="utf-8")
        (folder / path).chmod(0o755)
    return folder / "bin/rt"


def link_all(source, folder, others):
    """Makes the folder, and in it links to all that is in the source but for the others, paths in it."""
    folder.mkdir(parents=True)
    for it in source.iterdir():
        below = {path.removeprefix(f"{it.name}/") for path in others if path.startswith(f"{it.name}/")}
        if below:
            link_all(it, folder / it.name, below)
        elif it.name not in others:
            (folder / it.name).symlink_to(it)
