"""Which version this is, and whether the program at work is the one that its release names."""

from __future__ import annotations

import hashlib
from pathlib import Path

from . import program

__version__ = "0.2.0"

PROVED = Path(__file__).with_name("PROVED")  # a release puts it here


def read_proved(path: Path) -> dict[str, str]:
    """Read what a release says of itself.

    Parameters
    ----------
    path : Path
        The file PROVED of a release: lines `name: value`. Other lines count for nothing.

    Returns
    -------
    dict of str to str
        The values by their names, as `commit`, `toolchain`, `gate`, `sources` and `program`. It is empty where
        there is no such file, as in a checkout.
    """
    if not path.exists():
        return {}
    lines = path.read_text(encoding="utf-8").splitlines()
    return {name: value.strip() for name, colon, value in (line.partition(": ") for line in lines) if colon}


def describe() -> tuple[str, bool]:
    """Say which version this is, and which program it calls.

    Returns
    -------
    text : str
        Four lines: the version, the path of the program, the sha256 of its file, and whether the release names it.
    agrees : bool
        False where the release names another program.

    Raises
    ------
    FileNotFoundError
        Where there is no program.
    """
    found = program.find()
    total = hashlib.sha256(Path(found).read_bytes()).hexdigest()
    named = read_proved(PROVED)
    if not named:
        verdict = "none: this package is no release, so that no sum is named"
    elif named.get("program") != total:
        verdict = f"this is another program than the one of the release, which is {named.get('program')}"
    else:
        verdict = f"the program is the one of the release, of commit {named.get('commit')}; gate: {named.get('gate')}"
    text = f"tohmeril {__version__}\nprogram: {found}\nsha256: {total}\nrelease: {verdict}"
    return text, not named or named.get("program") == total
