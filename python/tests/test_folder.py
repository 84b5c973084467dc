"""A folder is whole or it is not there: writers that are ended, readers beside them, disks that are full."""

import errno
import os
import pickle
import random
import resource
import shutil
import signal
import subprocess
import time
from concurrent.futures import ProcessPoolExecutor, ThreadPoolExecutor
from multiprocessing import get_context

import pandas as pd
import pytest
from conftest import CHECKOUT

from tohmeril import Data, ReadFault, run_text
from tohmeril.data import FILES
from tohmeril.folder import writing
from tohmeril.pipeline import Pipeline
from tohmeril.pipeline.data import EquityPricing
from tohmeril.pipeline.factors import Returns

KILLS = int(os.environ.get("TOHMERIL_KILLS", 40))  # how many writers are killed
SECONDS = float(os.environ.get("TOHMERIL_SECONDS", 4))  # how long one writes beside readers
DAYS = pd.bdate_range("2024-01-01", periods=60)
CLOSE = pd.DataFrame({sid: range(100 + sid, 160 + sid) for sid in range(40)}, index=DAYS, dtype=float)
HALVED = pd.concat([CLOSE[:30], CLOSE[30:] / 2])
SPLITS = pd.DataFrame({"sid": range(40), "effective_date": DAYS[30], "ratio": 0.5})
OLD = {
    "bars": {"close": HALVED, "volume": HALVED},
    "splits": SPLITS,
    "labels": {"sector": dict.fromkeys(range(40), "Tech")},
}
NEW = {"bars": {"close": CLOSE * 3, "volume": CLOSE}, "numbers": {"score": CLOSE.iloc[:3]}}
pipe = Pipeline({"close": EquityPricing.close.latest, "year": Returns(window_length=40)})
forks = get_context("fork")


def table(folder):
    return run_text(pipe, DAYS[45], DAYS[59], Data(folder))


def files(folder):
    """What commands see by the plain names."""
    return {name: (folder / name).read_bytes() for name in FILES.values() if (folder / name).exists()}


@pytest.fixture(scope="module")
def tables(tmp_path_factory):
    """The table of the old data, and that of the new."""
    folder = tmp_path_factory.mktemp("tables")
    found = [table(Data.write(folder / str(at), **parts).folder) for at, parts in enumerate((OLD, NEW))]
    assert found[0] != found[1]
    return found


def write_once(folder, parts):
    Data.write(folder, **parts)


def started(work, *args):
    child = forks.Process(target=work, args=args)
    child.start()
    return child


def test_a_writer_that_is_killed(tables, tmp_path):
    Data.write(tmp_path, **OLD)
    begun = time.monotonic()
    started(write_once, tmp_path, NEW).join()
    length, seen = time.monotonic() - begun, [1]
    whole = [files(Data.write(tmp_path / str(at), **parts).folder) for at, parts in enumerate((OLD, NEW))]
    chance = random.Random(1)
    for _ in range(KILLS):
        writer = started(write_once, tmp_path, (NEW, OLD)[seen[-1]])
        time.sleep(chance.uniform(0, 1.3 * length))
        os.kill(writer.pid, signal.SIGKILL)
        writer.join()
        seen.append(tables.index(table(tmp_path)))
        assert {name: files(tmp_path)[name] for name in whole[seen[-1]]} == whole[seen[-1]]
    assert set(seen) == {0, 1}
    Data.write(tmp_path, **OLD)  # which is not in the way of the next one, and leaves nothing of them
    assert table(tmp_path) == tables[0] and files(tmp_path) == whole[0]
    assert {path.name for path in (tmp_path / "versions").iterdir()} <= {"current", "lock", *map(str, range(10**6))}


def write_for(folder, end):
    while time.monotonic() < end:
        for parts in (OLD, NEW):
            Data.write(folder, **parts)


def read_for(folder, end, tables, counts):
    runs = [0, 0]
    while time.monotonic() < end:
        runs[tables.index(table(folder))] += 1
    counts.put(runs)


def test_a_writer_and_four_readers(tables, tmp_path):
    Data.write(tmp_path, **OLD)
    end, counts = time.monotonic() + SECONDS, forks.Queue()
    readers = [started(read_for, tmp_path, end, tables, counts) for _ in range(4)]
    writer = started(write_for, tmp_path, end)
    found = [counts.get(timeout=SECONDS + 60) for _ in readers]
    for child in (writer, *readers):
        child.join()
        assert child.exitcode == 0  # no reader saw anything but these tables
    assert sum(old for old, _ in found) and sum(new for _, new in found)


@pytest.mark.parametrize("most", [100, 20_000, 70_000])
def test_a_full_disk(most, tables, tmp_path):
    def write():
        resource.setrlimit(resource.RLIMIT_FSIZE, (most, most))
        try:
            Data.write(tmp_path, **NEW)
        except OSError as error:
            os._exit(error.errno)

    Data.write(tmp_path, **OLD)
    before = files(tmp_path)
    writer = started(write)
    writer.join()
    assert writer.exitcode == errno.EFBIG
    assert files(tmp_path) == before and table(tmp_path) == tables[0] and not (tmp_path / "versions/new").exists()


def test_an_interrupted_writer(tables, tmp_path):
    def write():
        signal.signal(signal.SIGINT, signal.default_int_handler)
        ready.set()
        try:
            write_for(tmp_path, time.monotonic() + 60)
        except KeyboardInterrupt:
            os._exit(3)

    Data.write(tmp_path, **OLD)
    for _ in range(5):
        ready = forks.Event()
        writer = started(write)
        ready.wait(30)
        time.sleep(random.Random(2).uniform(0.01, 0.3))
        for _ in range(30):  # Python drops one that comes while it lets an object go, so press again
            os.kill(writer.pid, signal.SIGINT)
            writer.join(1)
            if writer.exitcode is not None:
                break
        assert writer.exitcode == 3 and not (tmp_path / "versions/new").exists()
        assert table(tmp_path) in tables


def test_nothing_is_left_of_a_first_write_with_a_fault(tmp_path):
    for folder in (tmp_path / "new", tmp_path):
        with pytest.raises(Exception, match="is no frame"):
            Data.write(folder, [CLOSE.assign(close=1.0, sid=1).rename_axis("session"), "x"])
    assert list(tmp_path.iterdir()) == []


def test_a_version_stays_while_it_is_held(tables, tmp_path):
    data = Data.write(tmp_path, **OLD)
    (tmp_path / "p.pl").write_text(str(pipe))
    for _ in range(3):
        newest = Data.write(tmp_path, **NEW)
    assert run_text(pipe, DAYS[45], DAYS[59], data) == tables[0]
    assert run_text(pipe, DAYS[45], DAYS[59], newest) == table(tmp_path) == tables[1]
    held = data.files["bars"]
    again = pickle.loads(pickle.dumps(data))
    del data
    Data.write(tmp_path, **NEW)
    assert held.exists() and again.files["bars"] == held
    with ProcessPoolExecutor(1) as pool:
        assert run_text(pipe, DAYS[45], DAYS[59], again, executor=pool, pieces=2) == tables[0]
    del again, newest
    Data.write(tmp_path, **NEW)
    assert not held.exists() and len(list((tmp_path / "versions").glob("[0-9]*"))) == 2
    assert (
        (tmp_path / "p.pl").exists()
        and not (tmp_path / "labels.csv").is_symlink()
        and (tmp_path / "numbers.csv").exists()
    )


def test_files_that_were_put_there(tables, tmp_path):
    for name, content in files(Data.write(tmp_path / "made", **OLD).folder).items():
        (tmp_path / name).write_bytes(content)
    data = Data(tmp_path)
    assert table(tmp_path) == tables[0] and not (tmp_path / "versions").exists()
    Data.write(tmp_path, **NEW)
    assert run_text(pipe, DAYS[45], DAYS[59], data) == table(tmp_path) == tables[1]  # it sees one version, too
    (tmp_path / "bars.csv").unlink()
    shutil.copy(tmp_path / "made/bars.csv", tmp_path)  # one by hand in place of a version's
    assert Data(tmp_path).files["bars"] == tmp_path / "bars.csv" and table(tmp_path) not in tables
    Data.write(tmp_path, **NEW)
    assert table(tmp_path) == tables[1]


def test_files_of_another_user(tables, tmp_path, monkeypatch):
    """One may neither be linked nor removed."""

    def refuse(source, target):
        if os.path.basename(target) == "gone" or rename is None:
            raise PermissionError(errno.EPERM, "Operation not permitted", source)
        rename(source, target)

    rename = None
    for name, content in files(Data.write(tmp_path / "made", **OLD).folder).items():
        (tmp_path / name).write_bytes(content)
    monkeypatch.setattr(os, "link", refuse)
    held = Data.write(tmp_path, **NEW).files["bars"]
    rename = os.rename
    monkeypatch.setattr(os, "rename", refuse)
    for parts, shown in ((OLD, tables[0]), (OLD, tables[0]), (NEW, tables[1])):
        Data.write(tmp_path, **parts)
        assert table(tmp_path) == shown
    assert held.exists() and not (tmp_path / "versions/gone/bars.csv").exists()


def test_a_copy(tables, tmp_path):
    Data.write(tmp_path / "made", **OLD)
    Data.write(tmp_path / "made", **NEW)
    for symlinks in (True, False):  # a copy of the links, and one of what they lead to
        copy = shutil.copytree(tmp_path / "made", tmp_path / f"copy {symlinks}", symlinks=symlinks)
        assert table(copy) == tables[1]
        Data.write(copy, **OLD)
        assert table(copy) == tables[0]


def test_files_that_are_written_while_they_are_read(tables, tmp_path):
    for name, content in files(Data.write(tmp_path / "made", **OLD).folder).items():
        (tmp_path / name).write_bytes(content)
    data = Data(tmp_path)
    with pytest.raises(ReadFault, match="it was written while it was read: run it again"), data.steady():
        Data.write(tmp_path, **NEW)


def test_files_of_two_folders(tables, tmp_path):
    for name, parts in (("old", OLD), ("new", NEW)):
        Data.write(tmp_path / name, **parts)
    data = Data(tmp_path / "new", bars=str(tmp_path / "old/bars.csv"), adjustments="../old/adjustments.db")
    assert run_text(pipe, DAYS[45], DAYS[59], data) == tables[0]
    Data.write(tmp_path / "old", **NEW)
    assert run_text(pipe, DAYS[45], DAYS[59], data) == tables[0]


def test_writers_take_turns(tables, tmp_path):
    writers = [started(write_for, tmp_path, time.monotonic() + 1) for _ in range(3)]
    for writer in writers:
        writer.join()
        assert writer.exitcode == 0
    assert table(tmp_path) == tables[1]


def test_first_writers_with_faults_take_turns(tmp_path):
    found = []

    def work():
        end = time.monotonic() + 1.5
        while time.monotonic() < end:
            try:
                with writing(tmp_path / "data", ["a"]) as new:
                    (new / "a").write_text("x")
                    time.sleep(0.001)
                    assert [path.name for path in new.iterdir()] == ["a"]
                    raise KeyError
            except BaseException as error:
                found.append(repr(error))

    with ThreadPoolExecutor(4) as pool:
        for done in [pool.submit(work) for _ in range(4)]:
            done.result()
    assert set(found) == {"KeyError()"} and not list(tmp_path.glob("data/*"))


def test_no_adjustments(market, tmp_path):
    shutil.copytree(CHECKOUT / "examples/market", tmp_path, dirs_exist_ok=True, ignore=shutil.ignore_patterns("*.db"))
    with pytest.raises(ReadFault, match="adjustments.db\nmake it by") as told:
        Data(tmp_path)
    assert "adjustments" not in Data(tmp_path, adjustments=None).files
    command = told.value.note.splitlines()[1]
    subprocess.run(command, shell=True, check=True)
    assert "adjustments" in Data(tmp_path).files
    (tmp_path / "adjustments.sql").unlink()
    (tmp_path / "adjustments.db").unlink()
    with pytest.raises(
        ReadFault, match="recipes/adjustments.sh SPLITS.csv MERGERS.csv DIVIDENDS.csv .*\n.*adjustments=None"
    ):
        Data(tmp_path)
    with pytest.raises(ReadFault, match="read: .*nowhere/sessions.csv\nthere is no folder .*nowhere: Data.write makes"):
        run_text(pipe, DAYS[1], DAYS[2], Data(tmp_path / "nowhere"))
