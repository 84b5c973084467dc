"""Which program is called, and what `python -m tohmeril version` says of it."""

import hashlib
import os
from pathlib import Path

import pytest

from tohmeril import __version__, program, version
from tohmeril.__main__ import main

HERE = "the program of this run"
FOUND = [("named", "inside", "path"), ("inside", "path"), ("path",), ()]
SAID = [
    (None, 0, "none: this package is no release, so that no sum is named"),
    (HERE, 0, "the program is the one of the release, of commit 1a2b; gate: 9 passed, 0 failed"),
    ("0" * 64, 1, f"this is another program than the one of the release, which is {'0' * 64}"),
]


@pytest.mark.parametrize("places", FOUND, ids="-".join)
def test_which_program(places, monkeypatch, tmp_path):
    files = {"named": tmp_path / "one", "inside": tmp_path / "package/bin/tohmeril", "path": tmp_path / "bin/tohmeril"}
    for place in places:
        files[place].parent.mkdir(parents=True, exist_ok=True)
        files[place].touch(mode=0o755)
    monkeypatch.setenv("PATH", str(tmp_path / "bin"))
    monkeypatch.setattr(program, "__file__", str(tmp_path / "package/program.py"))
    if "named" in places:
        monkeypatch.setenv("TOHMERIL", str(files["named"]))
    else:
        monkeypatch.delenv("TOHMERIL")
    if places:
        assert program.find() == str(files[places[0]])
    else:
        with pytest.raises(FileNotFoundError, match="there is no program tohmeril"):
            program.find()


@pytest.mark.parametrize("named, status, said", SAID)
def test_version(named, status, said, monkeypatch, tmp_path, capsys):
    total = hashlib.sha256(Path(os.environ["TOHMERIL"]).read_bytes()).hexdigest()
    if named:
        text = (
            f"Of a release.\n\ncommit: 1a2b\ngate: 9 passed, 0 failed\nprogram: {total if named == HERE else named}\n"
        )
        (tmp_path / "PROVED").write_text(text)
    monkeypatch.setattr(version, "PROVED", tmp_path / "PROVED")
    assert main(["version"]) == status
    assert (
        capsys.readouterr().out
        == f"tohmeril {__version__}\nprogram: {os.environ['TOHMERIL']}\nsha256: {total}\nrelease: {said}\n"
    )
