"""ten_thousand.py make SMALL LARGE FOLDER: ten thousand records of all sorts, made of two, under names of all sorts.
ten_thousand.py read FOLDER JSON: reads what the tool told of them, and compares it with what can be worked out here."""
import json
import os
import random
import sys

COUNT = 10_000


def number_at(record, at):
    value = shift = 0
    while True:
        if at == len(record):
            return None, at
        byte = record[at]
        value |= (byte & 127) << shift
        shift += 7
        at += 1
        if byte < 128:
            return value, at


def parts_of(record):
    """Header, parts as (plane, level, bits, offset, end), and the tail's length, of a record of good parts."""
    at, header = 0, []
    for _ in range(5):
        value, at = number_at(record, at)
        header.append(value)
    parts = []
    while at < len(record):
        begin, head = at, []
        for _ in range(3):
            value, at = number_at(record, at)
            head.append(value)
            if value is None:
                return header, parts, len(record) - begin
        end = at + (head[2] + 7) // 8
        if end > len(record):
            return header, parts, len(record) - begin
        parts.append((*head, begin, end))
        at = end
    return header, parts, 0


def some_parts(record, chance):
    _, parts, _ = parts_of(record)
    kept = b"".join(record[begin:end] for *_, begin, end in parts if chance.random() < 0.8)
    return record[: parts[0][3]] + kept


def name_of(index, chance):
    """Every hundredth has bytes in it that need care in JSON."""
    odd = [b'"', b"\\", b"\n", b"\x01", "é€😀".encode(), b"\xff\xc0", b"\xed\xa0\x80", b"\x7f"]
    return b"%05d" % index + (b".record" if index % 100 else b" " + chance.choice(odd))


def make(small, large, folder):
    chance = random.Random(1)
    for index in range(COUNT):
        whole = large if index % 50 == 0 else small
        record = some_parts(whole, chance)
        record = record[: chance.randint(5, len(record))]
        if index % 3 == 0:
            record = bytearray(record)
            record[chance.randrange(len(record))] ^= 1 << chance.randrange(8)
        with open(os.path.join(folder.encode(), name_of(index, chance)), "wb") as file:
            file.write(record)


def reached_planes(levels, planes, there):
    """By the definition: a part is usable if all of its own or a higher plane, and of its own or a coarser level, are there."""
    reached = []
    for level in range(1, levels + 1):
        plane = planes
        while plane > 0 and all((plane - 1, above) in there for above in range(level, levels + 1)):
            plane -= 1
        reached.append(plane)
    return reached


def farthest_pixels(reached):
    """By the formula, for the picture and each of its halvings."""
    *finer, coarsest = reached
    return [min(255, 2**coarsest - 1 + sum(3 * 2**m for m in finer[halvings:] if m > 0)) for halvings in range(len(finer))]


def is_right(told, record):
    if told["number"] != 0:
        return told["name"] in ("SIZE", "HEAD", "VERSION", "PART", "PAD", "FIT", "LONGFORM") and len(told["why"]) > 20 and told["tail"] is None
    (_, width, height, decompositions, planes), parts, tail = parts_of(record)
    there = {(plane, level) for plane, level, *_ in parts}
    levels = decompositions + 1
    missing = [{"plane": p, "level": k} for p in range(planes - 1, -1, -1) for k in range(levels, 0, -1) if (p, k) not in there]
    return (
        (told["width"], told["height"], told["decompositions"], told["planes"]) == (width, height, decompositions, planes)
        and told["parts"]
        == [
            {"plane": plane, "level": level, "bits": bits, "offset": begin, "length": end - begin}
            for plane, level, bits, begin, end in parts
        ]
        and told["missing"] == missing
        and told["tail"] == tail
        and told["lacks"] == (bool(missing) or tail > 0)
        and told["reached"] == reached_planes(levels, planes, there)
        and told["skipped"] == [sum(k == level and n < reached for n, k in there) for level, reached in enumerate(told["reached"], 1)]
        and told["farthest_pixels"] == farthest_pixels(told["reached"])
    )


def read(folder, path):
    with open(path, encoding="utf-8") as file:
        objects = [json.loads(line) for line in file]
    wrong = 0
    for told in objects:
        with open(os.fsencode(told["file"]), "rb") as file:
            record = file.read()
        wrong += told["length"] != len(record) or not is_right(told, record)
    unseen = {os.fsencode(os.path.join(folder, name)) for name in os.listdir(folder)} - {os.fsencode(told["file"]) for told in objects}
    print(f"{len(objects)} objects, {wrong + len(unseen)} wrong")


if __name__ == "__main__":
    if sys.argv[1] == "make":
        make(open(sys.argv[2], "rb").read(), open(sys.argv[3], "rb").read(), sys.argv[4])
    else:
        read(sys.argv[2], sys.argv[3])
