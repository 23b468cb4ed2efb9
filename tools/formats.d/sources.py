"""Where files of each format are, how some are made, and what other readers than `struct` say of them."""
import datetime
import hashlib
import os
import random
import re
import struct
import subprocess
import wave
import zipfile
import zlib
import zoneinfo
from pathlib import Path

TOP = Path(__file__).resolve().parent.parent.parent
# Folders in which no file is looked for.
OUT = re.compile(r"/(proc|sys|dev|tmp|work|farm)(/|$)|/out(/|$)")
NAMES = {"png": (".png",), "wav": (".wav",), "zip": (".zip", ".whl", ".jar"), "pcap": (".pcap",)}
LARGEST = 4 << 20


def found(word):
    """The files of this machine, each content once, in an order that does not change."""
    if word == "zone":
        folders = [*zoneinfo.TZPATH, *(str(it) for it in Path("/usr/lib").glob("**/pytz/zoneinfo"))]
        is_one = lambda _, path: Path(path).read_bytes()[:4] == b"TZif"
    elif word == "rtps":
        return []
    elif word == "elf":
        folders = ["/usr/bin", "/usr/lib", "/opt/rattle/c", str(TOP / "crates")]
        is_one = lambda _, path: open(path, "rb").read(6)[:4] == b"\x7fELF"
    else:
        folders = ["/usr", "/root", "/opt"]
        is_one = lambda name, _: name.endswith(NAMES[word])
    seen = {}
    for folder in folders:
        for at, below, names in os.walk(folder):
            below[:] = sorted(it for it in below if word == "elf" or not OUT.search(f"{at}/{it}"))
            for name in sorted(names):
                path = f"{at}/{name}"
                try:
                    if os.path.isfile(path) and os.path.getsize(path) <= LARGEST and is_one(name, path):
                        seen.setdefault(hashlib.sha256(Path(path).read_bytes()).digest(), path)
                except OSError:
                    pass
    return list(seen.values())


def made_captures(folder):
    """Files of packets in both orders, with micro- and nanoseconds."""
    random_of = random.Random(7)
    for order in "<>":
        for magic, most in ((0xa1b2c3d4, 1_000_000), (0xa1b23c4d, 1_000_000_000)):
            for count in (0, 1, 40):
                data = struct.pack(f"{order}IHHiIII", magic, 2, 4, 0, 0, 65535, random_of.choice([0, 1, 101, 113, 9]))
                for _ in range(count):
                    packet = random_of.randbytes(random_of.randrange(200))
                    second = random_of.randrange(1 << 32)
                    data += struct.pack(f"{order}4I", second, random_of.randrange(most), len(packet), 1500) + packet
                path = Path(f"{folder}/made-{'little' if order == '<' else 'big'}-{magic:x}-{count}.pcap")
                path.write_bytes(data)
                yield str(path)


def made_images(folder):
    for colour, channels in ((0, 1), (2, 3), (4, 2), (6, 4)):
        rows = b"".join(b"\0" + bytes(range(channels * 5)) for _ in range(3))
        chunks = [(b"IHDR", struct.pack(">IIBBBBB", 5, 3, 8, colour, 0, 0, 0)), (b"tEXt", b"Title\0A test"),
                  (b"IDAT", zlib.compress(rows)), (b"IEND", b"")]
        data = b"\x89PNG\r\n\x1a\n"
        for kind, content in chunks:
            data += struct.pack(">I", len(content)) + kind + content + struct.pack(">I", zlib.crc32(kind + content))
        path = Path(f"{folder}/made-{colour}.png")
        path.write_bytes(data)
        yield str(path)


def made_sounds(folder):
    for channels, width, rate in ((1, 1, 8000), (2, 2, 44100), (1, 3, 48000), (2, 4, 96000)):
        path = f"{folder}/made-{channels}-{width}.wav"
        with wave.open(path, "wb") as it:
            it.setnchannels(channels)
            it.setsampwidth(width)
            it.setframerate(rate)
            it.writeframes(bytes(range(channels * width)) * 8)
        yield path


def made_archives(folder):
    for count in (0, 3, 20):
        path = f"{folder}/made-{count}.zip"
        with zipfile.ZipFile(path, "w") as it:
            for number in range(count):
                method = (zipfile.ZIP_STORED, zipfile.ZIP_DEFLATED)[number % 2]
                date = (1980 + number, 1 + number % 12, 1 + number, number, 2 * number, 2 * number)
                it.writestr(zipfile.ZipInfo(f"folder/{number}.txt", date), b"text " * number, method)
            it.comment = b"made" if count else b""
        yield path
    path = f"{folder}/behind.zip"
    Path(path).write_bytes(b"#!/bin/sh\n" + Path(f"{folder}/made-20.zip").read_bytes())
    yield path


def made_messages(folder):
    """Each message that the crate keeps, as bytes, and all of them as lines of digits."""
    lines = TOP / "crates/speedy_formats/data/messages.hex"
    yield str(lines)
    for number, line in enumerate(lines.read_text(encoding="utf-8").split()):
        path = Path(f"{folder}/made-{number}.rtps")
        path.write_bytes(bytes.fromhex(line))
        yield str(path)


MADE = {"rtps": made_messages, "pcap": made_captures, "png": made_images, "wav": made_sounds,
        "zip": made_archives}


def kept(word):
    """The files of a format that the crate keeps. Its messages are among those that are made."""
    suffix = {"zone": "tzif", "rtps": "none"}.get(word, word)
    return [str(it) for it in sorted((TOP / "crates/speedy_formats/data").glob(f"*.{suffix}"))]


def files_of(word, folder, machine):
    """The files that are kept and made, and those of the machine."""
    return [*kept(word), *(MADE[word](folder) if word in MADE else []), *(found(word) if machine else [])]


def samples_of(paths):
    """Some of the shorter files, to be broken."""
    short = sorted((os.path.getsize(path), path) for path in paths)
    some = [path for size, path in short if 0 < size < 4_000]
    return [Path(path).read_bytes() for path in (some[::max(1, len(some) // 12)] or [short[0][1]])]


# ---- other readers


def zone_otherwise(path, said):
    """Compares the changes with `zoneinfo`, unless the file counts leap seconds, which that leaves out."""
    if any(line.endswith(" leap seconds") for line in said):
        return ""
    with open(path, "rb") as it:
        zone = zoneinfo.ZoneInfo.from_file(it)
    form = re.compile(r"    (\d{4}-\d\d-\d\d \d\d:\d\d:\d\d) UTC ([+-])(\d\d):(\d\d):(\d\d) (\S+)( daylight)?")
    for line in said:
        change = form.fullmatch(line)
        if change and change[1] > "0001-01-03":
            east = datetime.timedelta(hours=int(change[3]), minutes=int(change[4]), seconds=int(change[5]))
            local = datetime.datetime.fromisoformat(change[1] + "+00:00").astimezone(zone)
            if (local.utcoffset(), local.tzname()) != (-east if change[2] == "-" else east, change[6]):
                return f"zoneinfo has {local.utcoffset()} {local.tzname()} at {line}"
    return ""


def wav_otherwise(path, said):
    try:
        with wave.open(path) as it:
            wanted = (f"  sound of {it.getnchannels()} channels, {it.getframerate()} samples a second of "
                      f"{8 * it.getsampwidth()} bits, format 1")
            frames = f"    data {it.getnframes() * it.getnchannels() * it.getsampwidth()} bytes"
    except wave.Error:
        return ""  # it knows PCM alone
    return "" if wanted in said and frames in said else f"wave says {wanted!r}, {frames!r}"


def zip_otherwise(path, said):
    with zipfile.ZipFile(path) as it:
        wanted = [(f"{info.date_time[0]}-{info.date_time[1]:02}-{info.date_time[2]:02}", info.compress_size,
                   info.file_size, f"{info.CRC:08x}") for info in it.infolist()]
    got = [re.match(r"    (\S+) \S+ (\d+) of (\d+) bytes, [\w ]+, CRC (\w+): ", line) for line in said]
    got = [(it[1], int(it[2]), int(it[3]), it[4]) for it in got if it]
    return "" if got == wanted else "zipfile has other entries"


VISIBILITIES = {"DEFAULT": 0, "INTERNAL": 1, "HIDDEN": 2, "PROTECTED": 3}
PLACES = {"UND": 0, "ABS": 0xfff1, "COM": 0xfff2}


def symbols_otherwise(printed, said):
    """Compares symbols with those that `readelf` prints, to whose names it adds versions."""
    word = r"(?:\w+|<.*?>: \d+)"
    value = r"([0-9a-f]{16}) +(\d+|0x[0-9a-f]+)"
    row = re.compile(rf"(?m)^ +\d+: {value} {word} +{word} +(\w+) +(?:\[.*?\] +)?(\w+) ?(.*)$")
    wanted = [(int(it[1], 16), int(it[2], 0), VISIBILITIES[it[3]], PLACES.get(it[4]) or int(it[4].replace("UND", "0")))
              for it in row.finditer(printed)]
    names = [it[5] for it in row.finditer(printed)]
    form = r"    value 0x([0-9a-f]+) size (\d+) info \S+ visibility (\d+) section (\d+) (.*)"
    got = [it for it in (re.fullmatch(form, line) for line in said) if it]
    if [(int(it[1], 16), int(it[2]), int(it[3]) & 3, int(it[4])) for it in got] != wanted:
        return "readelf has other symbols"
    if not all(name.startswith(it[5]) for it, name in zip(got, names) if it[5].isascii() and "\\x" not in it[5]):
        return "readelf has other names of symbols"
    return ""


def elf_otherwise(path, said):
    """Compares entry, segments, sections and symbols with `readelf`, where it is."""
    try:
        ran = subprocess.run(["readelf", "-hlSsW", path], capture_output=True, text=True, errors="replace", check=False)
    except FileNotFoundError:
        return ""
    hexes = r"0x([0-9a-f]+)"
    entry = re.search(rf"Entry point address: +{hexes}", ran.stdout)[1]
    if f"entry 0x{entry}" not in said[0]:
        return f"readelf has the entry {entry}"
    row = re.compile(rf"(?m)^  \S+(?: \d+)? +{hexes} {hexes} {hexes} {hexes} {hexes} (.{{3}}) {hexes}$")
    wanted = [tuple(int(it[n], 16) for n in (1, 2, 3, 4, 5, 7)) for it in row.finditer(ran.stdout)]
    form = rf"    kind \S+ flags \S+ offset {hexes} size {hexes} address {hexes} {hexes} size {hexes} alignment {hexes}"
    got = [re.fullmatch(form, line) for line in said]
    got = [tuple(int(it[n], 16) for n in (1, 3, 4, 2, 5, 6)) for it in got if it]
    if got != wanted:
        return "readelf has other segments"
    row = re.compile(r"(?m)^  \[ *\d+\] (\S*) +\S+ +([0-9a-f]{16}) ([0-9a-f]+) ([0-9a-f]+) ([0-9a-f]+)"
                     r" .*?(\d+) +(\d+) +(\d+)$")
    rows = list(row.finditer(ran.stdout))
    wanted = [(it[1], *(int(it[n], 16) for n in (2, 3, 4, 5)), int(it[6]), int(it[7])) for it in rows]
    form = (rf"    kind \S+ flags \S+ offset {hexes} size {hexes} address {hexes} items {hexes} link (\d+) info (\d+)"
            r" alignment \S+ (.*)")
    got = [re.fullmatch(form, line) for line in said]
    got = [(it[7], *(int(it[n], 16) for n in (3, 1, 2, 4)), int(it[5]), int(it[6])) for it in got if it]
    return "readelf has other sections" if got != wanted else symbols_otherwise(ran.stdout, said)


OTHERWISE = {"zone": zone_otherwise, "wav": wav_otherwise, "zip": zip_otherwise, "elf": elf_otherwise}


def look_otherwise(word, path, said):
    """What another reader says otherwise, or nothing."""
    return OTHERWISE[word](path, said) if word in OTHERWISE else ""
