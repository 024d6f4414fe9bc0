"""Seals are those of the tool, both ways, and what is held against them is judged as it judges."""

from __future__ import annotations

import json
import os
from pathlib import Path
from typing import Any, Callable, Dict, List

import numpy as np
import pytest

import afshtruni
from afshtruni import Verdict
from conftest import Tool

NAMES = [
    b"b.record", b"a.record", b"a\nb %\xff \xc3\xa9.record", b"\xed\xa0\x80\xf0\x9f\x98\x80",
    b"%41",
]


def _noise(seed: int) -> bytes:
    pixels = np.random.default_rng(seed).integers(0, 256, (16, 16)).astype(np.uint8)
    return afshtruni.code(pixels)


@pytest.fixture
def here(tmp_path: Path, monkeypatch: pytest.MonkeyPatch) -> Path:
    monkeypatch.chdir(tmp_path)
    return tmp_path


def _places(told: Any) -> Any:
    return () if told is None else tuple((part["plane"], part["level"]) for part in told)


def _same_as_json(verdict: Verdict, told: Dict[str, Any]) -> None:
    refusal = verdict.refusal
    assert (verdict.kind, verdict.of, verdict.tail) == (told["verdict"], told["of"], told["tail"])
    assert verdict.changed == _places(told["changed"])
    assert verdict.missing == _places(told["missing"])
    why = (0, None) if refusal is None else (refusal.number, refusal.why)
    assert why == (told["number"], told["why"])


def _same_as_tool(afs: Tool, seals: bytes, name: str, *options: str, **asked: Any) -> Verdict:
    """Of a file, held against seals that lie beside it."""
    Path("all.seals").write_bytes(seals)
    verdict = afshtruni.verify(seals, Path(name).read_bytes(), name, **asked)
    told = afs("verify", *options, "all.seals", name)
    printed = "".join(line + "\n" for line in verdict.lines)
    assert printed.encode("utf-8", "surrogateescape") == told.stdout
    assert (verdict.status, bool(verdict)) == (told.returncode, told.returncode == 0)
    refusal = verdict.refusal
    wanted = "" if refusal is None else f"{str(refusal).replace(': ', f': {name}: ', 1)}\n"
    assert told.stderr == wanted.encode("utf-8", "surrogateescape")
    _same_as_json(verdict, json.loads(afs("verify", "--json", *options, "all.seals", name).stdout))
    return verdict


def test_seals_are_the_tools(afs: Tool, here: Path, record: bytes) -> None:
    records: Dict[Any, bytes] = {}
    for seed, name in enumerate(NAMES):
        records[os.fsdecode(name)] = _noise(seed)
    records[Path("sub/job.record")] = record
    records["black"] = afshtruni.code(np.zeros((8, 8), np.uint8))
    Path("sub").mkdir()
    for name, held in records.items():
        Path(name).write_bytes(held)
    written = afs("seal", *map(os.fspath, reversed(records))).stdout
    assert afshtruni.seal(records) == written
    assert b"file a%0Ab %25%FF \xc3\xa9.record\n" in written
    for name in map(os.fspath, records):
        verdict = _same_as_tool(afs, written, name)
        assert verdict and verdict.kind == "whole" and verdict.of == name


def test_every_sort_of_damage(afs: Tool, here: Path, record: bytes, variants: List[bytes]) -> None:
    seals = afshtruni.seal({"job.record": record, "other.record": _noise(1)})
    statuses = set()
    for i, held in enumerate(variants[::5]):
        Path("arrived.record").write_bytes(held)
        statuses.add(_same_as_tool(afs, seals, "arrived.record").status)
        asked = _same_as_tool(afs, seals, "arrived.record", "--of", "job.record", of="job.record")
        statuses.add(asked.status)
        assert (asked.kind == "whole") == (held == record)
        if i % 5 == 0:
            statuses.add(_same_as_tool(afs, seals, "arrived.record", "--whole", whole=True).status)
    assert statuses == {0, 3, 4, 5}


def test_a_tail_is_of_a_part_that_may_follow(afs: Tool, here: Path, record: bytes) -> None:
    seals = afshtruni.seal({"job.record": record})
    parts = afshtruni.parts(record)
    for follower, status in ((9, 4), (3, 5)):
        head = record[parts[follower].offset : parts[follower].offset + 1]
        Path("job.record").write_bytes(record[: parts[8].offset] + head)
        assert _same_as_tool(afs, seals, "job.record").status == status


def test_parts_are_named(record: bytes) -> None:
    part = afshtruni.parts(record)[7]
    changed = bytearray(record)
    changed[part.offset + part.length - 2] ^= 1
    seals = afshtruni.seal({"job.record": record})
    verdict = afshtruni.verify(seals, bytes(changed))
    assert (verdict.status, verdict.of, verdict.kind) == (5, "job.record", "changed")
    assert (verdict.changed, verdict.missing) == (((part.plane, part.level),), ())
    small = afshtruni.verify(seals, afshtruni.serve(record, plane=1))
    assert (small.status, small.changed) == (0, ())
    assert small.missing == tuple((0, level) for level in (4, 3, 2, 1))
    assert small.lines[0].startswith("the record: of job.record: a selection: levels 1 to 4")


@pytest.fixture
def two_jobs(here: Path) -> bytes:
    """In folders of their own, with one file name."""
    records = {"a/job.record": _noise(5), "b/job.record": _noise(6)}
    for name, held in records.items():
        Path(name).parent.mkdir()
        Path(name).write_bytes(held)
    return afshtruni.seal(records)


def test_another_jobs_record_is_told(afs: Tool, here: Path, two_jobs: bytes) -> None:
    paths = ("a/job.record", "./a/job.record", "b/../a//job.record", str(here / "a" / "job.record"))
    for path in paths:
        assert _same_as_tool(afs, two_jobs, path).kind == "whole"
    Path("a/job.record").write_bytes(Path("b/job.record").read_bytes())
    for path in paths:
        verdict = _same_as_tool(afs, two_jobs, path)
        assert (verdict.status, verdict.of, verdict.kind) == (5, "b/job.record", "another")
        assert len(verdict.lines) == 1
        assert _same_as_tool(afs, two_jobs, path, "--of", "b/job.record", of="b/job.record")


def test_from_inside_the_folder(
    afs: Tool, here: Path, two_jobs: bytes, monkeypatch: pytest.MonkeyPatch
) -> None:
    monkeypatch.chdir("a")
    assert _same_as_tool(afs, two_jobs, "job.record").of == "a/job.record"
    Path("job.record").write_bytes(Path("../b/job.record").read_bytes())
    assert _same_as_tool(afs, two_jobs, "job.record").status == 5
    assert _same_as_tool(afs, two_jobs, "../b/job.record").status == 0


def test_a_name_that_tells_nothing(afs: Tool, here: Path, two_jobs: bytes) -> None:
    Path("job.record").write_bytes(Path("b/job.record").read_bytes())
    assert _same_as_tool(afs, two_jobs, "job.record").kind == "ambiguous"
    small = afshtruni.serve(Path("b/job.record").read_bytes(), 2, 1)
    Path("small.record").write_bytes(small)
    verdict = _same_as_tool(afs, two_jobs, "small.record")
    assert (verdict.status, verdict.kind, verdict.of) == (0, "selection", "b/job.record")
    assert afshtruni.verify(two_jobs, small).of == "b/job.record"
    Path("foreign").write_bytes(afshtruni.code(np.full((8, 8), 77, np.uint8)))
    assert _same_as_tool(afs, two_jobs, "foreign").kind == "unknown"


def test_joined_of_two_jobs(afs: Tool, here: Path, two_jobs: bytes) -> None:
    one, other = (Path(name).read_bytes() for name in ("a/job.record", "b/job.record"))
    head = one[: afshtruni.parts(one)[0].offset]
    mine = [part for part in afshtruni.parts(one) if part.plane > 3]
    foreign = [part for part in afshtruni.parts(other) if part.plane <= 3]
    mixed = head + b"".join(one[p.offset : p.offset + p.length] for p in mine)
    mixed += b"".join(other[p.offset : p.offset + p.length] for p in foreign)
    Path("a/job.record").write_bytes(mixed)
    verdict = _same_as_tool(afs, two_jobs, "a/job.record")
    assert (verdict.status, verdict.of) == (5, "a/job.record")
    assert set(verdict.changed) == {(part.plane, part.level) for part in foreign}


def test_of_what_is_not_sealed(two_jobs: bytes) -> None:
    held = _noise(5)
    with pytest.raises(ValueError, match="no record is sealed as c/none.record"):
        afshtruni.verify(two_jobs, held, of="c/none.record")
    with pytest.raises(ValueError, match="2 records are sealed as job.record; the folder before"):
        afshtruni.verify(two_jobs, held, of="job.record")


def _edited(old: bytes, new: bytes) -> Callable[[bytes], bytes]:
    return lambda seals: seals.replace(old, new, 1)


@pytest.mark.parametrize(
    "edit",
    [
        pytest.param(lambda _: b"", id="empty"),
        pytest.param(_edited(b"seals 1", b"seals 2"), id="another version"),
        pytest.param(_edited(b"\nseal ", b"\nlaes "), id="no digest of a record"),
        pytest.param(lambda seals: seals[:-3] + b"00\n", id="another last digest"),
        pytest.param(_edited(b"part 6", b"part 06"), id="a zero in front"),
        pytest.param(lambda seals: seals[: seals.rindex(b"sha256")], id="no end"),
        pytest.param(lambda seals: seals + b"\n", id="a line behind"),
        pytest.param(lambda seals: seals[:-1], id="no newline at the end"),
        pytest.param(_edited(b"\n", b"\r\n"), id="CR LF"),
        pytest.param(_edited(b"part 6 4", b"part 7 4"), id="a plane that is not"),
        pytest.param(_edited(b"record 64", b"record 66"), id="a header that is not legal"),
        pytest.param(_edited(b"record 64", b"record 1000000000"), id="ten digits"),
        pytest.param(_edited(b"file job", b"file zob"), id="names in another order"),
        pytest.param(_edited(b"file job", b"file %6Aob"), id="a name written otherwise"),
        pytest.param(_edited(b"file job", b"file job%"), id="a name with a bare %"),
        pytest.param(_edited(b"file job", b"file job\0"), id="a byte of 0"),
        pytest.param(_edited(b"file job", b"file job%00"), id="a byte of 0, written out"),
    ],
)
def test_seals_have_one_form(
    afs: Tool, here: Path, record: bytes, edit: Callable[[bytes], bytes]
) -> None:
    seals = edit(afshtruni.seal({"job.record": record, "kob.record": record}))
    Path("other.seals").write_bytes(seals)
    Path("job.record").write_bytes(record)
    with pytest.raises(ValueError, match="line [0-9]+ isn't as 'afs seal' wrote it") as raised:
        afshtruni.verify(seals, record)
    told = afs("verify", "other.seals", "job.record")
    assert (told.returncode, told.stderr.decode()) == (2, f"afs: other.seals: {raised.value}\n")


@pytest.mark.parametrize(
    "records, error, said",
    [
        ({"cut": _noise(1)[:-1]}, ValueError, "cut: has a tail of [0-9]+ bytes, which can't be"),
        ({"no": b""}, afshtruni.Refusal, "refused 6 HEAD at 0: no: nothing is there"),
        ({"a": _noise(1), Path("a"): _noise(2)}, ValueError, "a: is to be sealed twice"),
        ({"": _noise(1)}, ValueError, "no file can have the name ''"),
        ({"a\0": _noise(1)}, ValueError, "no file can have the name"),
        ({b"a": _noise(1)}, TypeError, "a name must be str, not bytes"),
        ({"a": "text"}, TypeError, "record must be bytes"),
    ],
)
def test_what_is_not_sealed(records: Any, error: type, said: str) -> None:
    with pytest.raises(error, match=said):
        afshtruni.seal(records)


@pytest.mark.parametrize("given", [None, "afshtruni seals 1", 7])
def test_seals_must_be_bytes(given: Any) -> None:
    with pytest.raises(TypeError, match="seals must be bytes"):
        afshtruni.verify(given, b"")


def test_nothing_sealed(afs: Tool, here: Path) -> None:
    seals = afshtruni.seal({})
    Path("job.record").write_bytes(_noise(1))
    assert _same_as_tool(afs, seals, "job.record").of is None
