"""sealed.py mix RECORD OTHER OUT: the record with the finest level of another one of its size.
sealed.py make RECORD FOLDER TOOL FLIPS DAMAGED SELECTIONS: files made of a record: single bits turned over; runs of bytes dropped, swapped or zeroed;
parts left out, cut off, or joined from two selections by the tool. As many of each as is said; of the flips all where that is all.
sealed.py read RECORD FOLDER TOLD: compares what 'afs verify' told of them with what is worked out here from their bytes."""
import os
import random
import re
import subprocess
import sys
import tempfile
from collections import Counter

sys.dont_write_bytecode = True
from ten_thousand import parts_of


class Sealed:
    def __init__(self, record):
        _, parts, tail = parts_of(record)
        assert tail == 0
        self.record, self.header = record, record[: parts[0][3]]
        self.parts = {(plane, level): record[begin:end] for plane, level, _, begin, end in parts}
        self.heads = {(plane, level): record[begin : end - (bits + 7) // 8] for plane, level, bits, begin, end in parts}


def flips(record, count, *_):
    bits = 8 * len(record)
    for i in range(min(count, bits)):
        bit = i * bits // min(count, bits)
        turned = bytearray(record)
        turned[bit // 8] ^= 1 << bit % 8
        yield bytes(turned)


def damaged(record, count, chance, _):
    """Runs of all lengths, short ones most often."""
    for i in range(count):
        length = min(int(1 / chance.uniform(0.002, 1)), len(record) // 2)
        at = chance.randrange(len(record) - length + 1)
        before, run, behind = record[:at], record[at : at + length], record[at + length :]
        if i % 3 == 0:
            yield before + behind
        elif i % 3 == 1:
            yield before + bytes(length) + behind
        else:
            to = chance.randrange(len(record) - length + 1)
            low, high = min(at, to), max(at, to)
            length = min(length, high - low)
            yield (record[:low] + record[high : high + length] + record[low + length : high] + record[low : low + length] + record[high + length :])


def joined(first, second, tool):
    with tempfile.NamedTemporaryFile() as file:
        file.write(first)
        file.flush()
        return subprocess.run([tool, "join", file.name, "-"], input=second, stdout=subprocess.PIPE, check=True).stdout


def selections(record, count, chance, tool):
    sealed = Sealed(record)

    def served():
        level, plane = chance.randint(1, 6), chance.randint(0, 7)
        return sealed.header + b"".join(part for name, part in sealed.parts.items() if name[1] >= level and name[0] >= plane)

    for i in range(count):
        made = joined(served(), served(), tool) if i % 3 == 2 else served()
        yield made[: chance.randint(len(sealed.header), len(made))] if i % 3 == 1 else made


def make(record, folder, tool, *counts):
    chance = random.Random(1)
    for kind, count in zip((flips, damaged, selections), counts):
        for i, made in enumerate(kind(record, int(count), chance, tool)):
            with open(os.path.join(folder, f"{kind.__name__}{i:05d}"), "wb") as out:
                out.write(made)


def mix(record, other, out):
    with open(other, "rb") as file:
        parts, foreign = Sealed(record).parts, Sealed(file.read()).parts
    with open(out, "wb") as file:
        file.write(Sealed(record).header + b"".join(foreign[name] if name[1] == 1 else part for name, part in parts.items()))


def span(word, numbers):
    low, high = min(numbers), max(numbers)
    return f"{word} {low}" if low == high else f"{word}s {low} to {high}"


def selection_of(sealed, found):
    if len(found) == len(sealed.parts):
        return "whole"
    if not found:
        return "a selection: the header alone"
    planes, levels = [n for n, _ in found], [k for _, k in found]
    inside = sum(min(planes) <= n <= max(planes) and min(levels) <= k <= max(levels) for n, k in sealed.parts)
    some = "" if inside == len(found) else f"{len(found)} of the {inside} parts of "
    return f"a selection: {some}{span('level', levels)}, {span('plane', planes)}"


def verdict(sealed, file):
    """What is to be told of a file that is as it was sealed; or None."""
    if not file.startswith(sealed.header):
        return None
    at, found, names = len(sealed.header), [], list(sealed.parts)
    for i, name in enumerate(names):
        if file.startswith(sealed.parts[name], at):
            found.append(name)
            at += len(sealed.parts[name])
    told, tail = selection_of(sealed, found), file[at:]
    if not tail:
        return told
    behind = names[names.index(found[-1]) + 1 :] if found else names
    is_tail = any(len(tail) < len(sealed.parts[n]) and (tail.startswith(sealed.heads[n]) or sealed.heads[n].startswith(tail)) for n in behind)
    if not is_tail:
        return None
    return told + "; the tail isn't checked"


def is_right(sealed, file, lines):
    wanted = verdict(sealed, file)
    if wanted is not None:
        return lines == [wanted]
    named = {(int(n), int(k)) for line in lines for n, k in re.findall(r"\((\d+), (\d+)\)", line)}
    altered = {name for name, part in sealed.parts.items() if part not in file}
    return bool(lines) and altered <= named and not any(re.match("whole|a selection", line) for line in lines)


def read(record, folder, told):
    sealed, lines, seen, wrong = Sealed(record), {}, Counter(), []
    with open(told, encoding="ascii") as file:
        for line in file:
            path, text = re.fullmatch(r"(.*?): (?:of [^:]*: )?(.*)\n", line).groups()
            lines.setdefault(os.path.basename(path), []).append(text)
    names = sorted(os.listdir(folder))
    for name in names:
        with open(os.path.join(folder, name), "rb") as file:
            content = file.read()
        if not is_right(sealed, content, lines.get(name, [])) or (content != record and "whole" in lines[name]):
            wrong.append(name)
        wanted = verdict(sealed, content)
        seen[name.rstrip("0123456789"), "changed" if wanted is None else "tail" if "tail" in wanted else wanted.split(":")[0]] += 1
    for (kind, what), count in sorted(seen.items()):
        print(f"{kind}: {what} {count}")
    for name in wrong[:5]:
        print("wrong:", name, lines.get(name))
    print(f"{len(names)} files, {len(wrong)} wrong")


if __name__ == "__main__":
    with open(sys.argv[2], "rb") as file:
        whole = file.read()
    {"make": make, "mix": mix, "read": read}[sys.argv[1]](whole, *sys.argv[3:])
