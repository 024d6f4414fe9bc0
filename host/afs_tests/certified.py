"""What is in a sheet that 'afs certificate' made, read and worked out anew.
certified.py facts SHEET: its figures. certified.py picture SHEET INDEX PNG: its pictures, the first is the record's, the second the scale.
certified.py contrast SHEET: the least contrast of a colour of its text with what it stands on.
certified.py cases TOOL FOLDER COUNT [SEED]: so many pictures coded, some parts of each kept; what the sheets claim is worked out from the pyramid that was
recorded, the one that is decoded, the parts that are there, and those that were asked for. Every second one is held against a seal, and then a bit of it is
turned over as well: of that nothing may be claimed."""
import base64
import os
import random
import re
import struct
import subprocess
import sys
import zlib

sys.dont_write_bytecode = True
from sealed import Sealed, verdict
from ten_thousand import farthest_pixels, parts_of, reached_planes


def facts(html):
    """What stands in elements with a name; digests without their blanks."""
    found = dict(re.findall(r'<(?:span|code) id="([a-z0-9]+)">(.*?)</(?:span|code)>', html))
    return {name: re.sub(r"<br>| |,", "", text) for name, text in found.items()}


def pictures(html):
    return [base64.b64decode(text) for text in re.findall(r'src="data:image/png;base64,([A-Za-z0-9+/=]*)"', html)]


def values_of(png):
    """Of a PNG with a byte for each pixel: its rows, colours of a palette not looked up."""
    at, chunks = 8, {}
    while at < len(png):
        length, kind = struct.unpack(">I4s", png[at : at + 8])
        chunks[kind] = chunks.get(kind, b"") + png[at + 8 : at + 8 + length]
        at += 12 + length
    width, height, depth, colour = struct.unpack(">IIBB", chunks[b"IHDR"][:10])
    assert depth == 8 and colour in (0, 3)
    data, rows, above = zlib.decompress(chunks[b"IDAT"]), [], bytes(width)
    for row in range(height):
        way, line = data[row * (width + 1)], bytearray(data[row * (width + 1) + 1 : (row + 1) * (width + 1)])
        for i in range(width):
            left, up, corner = line[i - 1] if i else 0, above[i], above[i - 1] if i else 0
            nearest = min((left, up, corner), key=lambda value: abs(left + up - corner - value))
            line[i] = (line[i] + (0, left, up, (left + up) // 2, nearest)[way]) & 255
        rows.append(bytes(line))
        above = line
    return rows


def luminance(colour):
    parts = [int(colour[i : i + 2], 16) / 255 for i in (0, 2, 4)]
    red, green, blue = (part / 12.92 if part <= 0.03928 else ((part + 0.055) / 1.055) ** 2.4 for part in parts)
    return 0.2126 * red + 0.7152 * green + 0.0722 * blue


def contrast(html):
    """Text stands on what its rule names, else on white; on the screen's margin there is none."""
    least = 21
    for rule in re.findall(r"\{([^{}]*)\}", re.search("<style>(.*?)</style>", html, re.S).group(1)):
        colour, ground = re.search(r"(?<![a-z-])color: #([0-9a-f]{6})", rule), re.search(r"background: #([0-9a-f]{6})", rule)
        if colour:
            on = ground.group(1) if ground and "font:" not in rule else "ffffff"
            low, high = sorted((luminance(colour.group(1)), luminance(on)))
            least = min(least, (high + 0.05) / (low + 0.05))
    return least


class Tool:
    def __init__(self, path):
        self.path = path

    def __call__(self, *words, given=None):
        return subprocess.run([self.path, *words], input=given, stdout=subprocess.PIPE, stderr=subprocess.DEVNULL, check=True).stdout

    def certificate(self, *words):
        done = subprocess.run([self.path, "certificate", *words], stdout=subprocess.PIPE, stderr=subprocess.DEVNULL)
        return done.returncode, done.stdout.decode()

    def pyramid(self, record):
        made = self("decode", given=record)
        return struct.unpack(f"<{len(made) // 4}i", made)

    def picture(self, record, halvings):
        made = self("decode", "-g", "-s", str(halvings), given=record)
        return made[made.index(b"\n255\n") + 5 :]


def some_picture(chance):
    n = chance.randint(1, 5)
    width, height = (chance.choice([side for side in range(2 << n, 97, 2 << n)]) for _ in range(2))
    slope, noise, step = chance.uniform(-3, 3), chance.choice([0, 4, 40, 255]), chance.choice([1, 3, 90])
    pixels = bytes(
        max(0, min(255, int(128 + slope * (x - y) + (x // 7 % 2) * step + chance.uniform(-noise, noise)))) for y in range(height) for x in range(width)
    )
    return n, b"P5\n%d %d\n255\n" % (width, height) + pixels


def some_of(record, chance):
    """Whole, served, with parts lost, and mostly cut off."""
    header, parts, _ = parts_of(record)
    kind = chance.randrange(5)
    level, plane, share = chance.randint(1, header[3] + 1), chance.randint(0, header[4]), chance.uniform(0.6, 1)
    kept = [p for p in parts if kind == 0 or (kind == 1 and p[1] >= level and p[0] >= plane) or (kind >= 2 and (p[0] > 3 or chance.random() < share))]
    made = record[: parts[0][3] if parts else len(record)] + b"".join(record[begin:end] for *_, begin, end in kept)
    return made[: chance.randint(len(made) * 2 // 3, len(made))] if kind >= 3 and len(made) > 40 else made


def level_of(index, width, height, n):
    row, column = divmod(index, width)
    return next((k for k in range(1, n + 1) if row >= height >> k or column >= width >> k), n + 1)


class Asked:
    """What is said to have been asked for: options, the level and plane that they stand for, and how often the picture is halved then."""

    def __init__(self, kept, chance):
        (_, _, _, n, planes), parts, _ = parts_of(kept)
        kind, self.level, self.plane, self.options = chance.randrange(5), 1, 0, []
        if kind in (0, 1):
            self.level = chance.randint(1, n + 1)
            self.options += ["-r", str(self.level)]
        if kind in (1, 2):
            self.plane = chance.randint(0, planes)
            self.options += ["-p", str(self.plane)]
        if kind == 3:
            most = chance.choice([0, 6, 19, 39, 51, 103, 254, 255])
            self.plane = max(plane for plane in range(planes + 1) if plane == 0 or farthest_pixels([plane] * (n + 1))[0] <= most)
            self.options = ["-e", str(most)]
        finest = min((level for _, level, *_ in parts), default=n + 1 if planes else 1)
        self.halvings = min(self.level if kind in (0, 1) else finest, n) - 1

    def counts(self, n, planes, there):
        absent = {(plane, level) for plane in range(planes) for level in range(1, n + 2)} - there
        missing = sum(plane >= self.plane and level >= self.level for plane, level in absent)
        return {"missing": missing, "left": len(absent) - missing, "unasked": len(absent) - missing}


def is_right(tool, whole, recorded, kept, asked, html):
    (_, width, height, n, planes), parts, tail = parts_of(kept)
    there, told = {(plane, level) for plane, level, *_ in parts}, {"tail": 0, "skipped": 0, "left": 0, "unasked": 0, **facts(html)}
    reached, halvings = reached_planes(n + 1, planes, there), asked.halvings
    used = sum(plane >= reached[level - 1] for plane, level in there if level > halvings)
    farthest = farthest_pixels(reached)[halvings]
    skipped = sum(plane < reached[level - 1] for plane, level in there)
    claims = {"farthest": farthest, "there": len(there), "used": used, "skipped": skipped, "tail": tail, **asked.counts(n, planes, there)}
    near = all(
        abs(was - now) < 1 << reached[level_of(i, width, height, n) - 1] for i, (was, now) in enumerate(zip(recorded, tool.pyramid(kept)))
    )
    drawn = b"".join(values_of(pictures(html)[0]))
    away = max(abs(was - now) for was, now in zip(tool.picture(whole, halvings), drawn))
    return near and away <= farthest and len(drawn) == (width >> halvings) * (height >> halvings) and all(int(told[k]) == v for k, v in claims.items())


def is_held_right(tool, whole, kept, folder, chance, html, status, sorts):
    """Of what is as it was sealed what verify says, and the digest on the sealed record's line; of a changed copy no claim."""
    found = verdict(Sealed(whole), kept)
    with open(os.path.join(folder, "case.seals"), encoding="ascii") as file:
        digest = re.search("^seal (.*)$", file.read(), re.M).group(1)
    right = status == (4 if "tail" in found else 0) and facts(html)["seal"] == digest and f'"found">{found}</span>' in html and "since it was coded" not in html
    turned = bytearray(kept)
    turned[chance.randrange(5, len(kept)) if len(kept) > 5 else 4] ^= 1 << chance.randrange(8)
    with open(os.path.join(folder, "turned.record"), "wb") as file:
        file.write(turned)
    status, html = tool.certificate("--seals", os.path.join(folder, "case.seals"), os.path.join(folder, "turned.record"))
    if status != 5:  # refused, or turned over in a tail, which isn't checked
        return right and (status == 1 or (status == 4 and verdict(Sealed(whole), bytes(turned)) is not None))
    sorts["changed"] += 1
    return right and "farthest" not in facts(html) and html.index("alarm") < html.index("<h1>") and "<strong>" not in html


def cases(path, folder, count, seed="1"):
    tool, chance, wrong, sorts = Tool(path), random.Random(int(seed)), [], {"exact": 0, "bound": 0, "none": 0, "asked": 0, "held": 0, "changed": 0}
    at = os.path.join(folder, "case")
    for case in range(int(count)):
        if case % 5 == 0:
            n, picture = some_picture(chance)
            whole = tool("code", "-n", str(n), given=picture)
            recorded = tool.pyramid(whole)
            with open(at + ".seals", "wb") as file:
                file.write(tool("seal", given=whole))
        kept, is_held = some_of(whole, chance), case % 2 == 1
        asked = Asked(kept, chance)
        with open(at + ".record", "wb") as file:
            file.write(kept)
        status, html = tool.certificate(*asked.options, *(["--seals", at + ".seals"] if is_held else []), at + ".record")
        farthest = int(facts(html)["farthest"])
        sorts["exact" if farthest == 0 else "bound" if farthest < 255 else "none"] += 1
        sorts["asked"] += bool(asked.options)
        sorts["held"] += is_held
        held = is_held_right(tool, whole, kept, folder, chance, html, status, sorts) if is_held else status == 0 and 'class="held">Not held' in html
        if not held or not is_right(tool, whole, recorded, kept, asked, html):
            wrong.append(case)
    told = ", ".join(f"{name} {number}" for name, number in sorts.items()).replace("none", "none nearer than 255")
    print(f"{count} cases, {len(wrong)} wrong {wrong[:3]}; {told}")


def main(what, path, *rest):
    if what == "cases":
        return cases(path, *rest)
    with open(path, encoding="utf-8") as file:
        html = file.read()
    if what == "facts":
        print(*(f"{name} {text}" for name, text in facts(html).items()), sep="\n")
    elif what == "picture":
        with open(rest[1], "wb") as file:
            file.write(pictures(html)[int(rest[0])])
    else:
        print(f"{contrast(html):.1f}")


if __name__ == "__main__":
    main(*sys.argv[1:])
