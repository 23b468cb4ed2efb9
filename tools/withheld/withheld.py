"""What the scripts of this folder share: the built programs, their lines, and rows of encodings."""
import os
import subprocess
import sys
import tempfile

HERE = os.path.dirname(os.path.realpath(__file__))
TOP = os.path.dirname(os.path.dirname(HERE))
PROGRAM = TOP + "/crates/speedy_vectors/"

# Names of types that borrow, of which no value is read where nothing is lent.
BORROWING = set(
    "str_ref bytes_ref bytes_ref_4 view_i8 array_view_i8_4 view_u16 array_view_u16_2 opt_str tuple_str_bytes "
    "array_str_2 vec_str map_str_bytes u8_str framed_str".split()
)
# Names of types that may borrow, so that the ways by which nothing may be borrowed do not exist for them.
NOT_OWNED = BORROWING | set("cow_str cow_u8 cow_u16 cow_u32 cow_u64 cow_strings record".split())

# The least sizes of types, as docs/LAYOUT.md has them.
LEAST_SIZES = {
    0: "unit",
    1: """
        u8 i8 bool varint nonzero_u8 nonzero_i8 endianness opt_u16 res_u16_u8 opt_bool opt_varint res_u16_u16
        res_string_vec opt_str opt_cow_map box_u8 u8_string u7_string u8_str varint_vec_string framed_u16
        framed_vec_u16
    """,
    2: "u16 i16 nonzero_u16 nonzero_i16 tuple_1 box_u16 array_opt_u16_2 framed_twice",
    3: "tuple_u16_u8 tuple_3_u8",
    4: """
        u32 i32 nonzero_i32 nonzero_u32 char ipv4 range_u16 range_incl_u16 tuple_u16_u16 array_u8_4
        array_u16_2 array_view_u16_2 bytes_ref_4 array_view_i8_4 frame enum derived_enum one_of string
        boxed_str box_string cow_str str_ref bytes_ref view_i8 view_u16 vec_u8 vec_u16 vec_u32 vec_u64
        vec_u128 vec_bool vec_char vec_unit vec_varint vec_duration vec_array_u16_4 vec_opt_string vec_string
        vec_vec_u8 vec_vec_u16 vec_record vec_str boxed_u8 boxed_u16 boxed_strings small_vec_u16_4
        small_strings_2 cow_u8 cow_u16 cow_u32 cow_u64 cow_strings set_u16 set_varint set_string hash_set_u16
        hash_set_string index_set_u16 index_set_string map_u8_u8 map_u16_bool map_u16_u8 map_u8_map
        map_string_vec_u16 map_str_bytes hash_map_u16_bool hash_map_u16_u8 hash_map_string_vec_u16
        index_map_u8_u8 index_map_string_u16 cow_set_u16 cow_hash_set_u16 cow_map_u16_u8 cow_hash_map_u16_u8
        framed_string framed_str
    """,
    5: "ip tree",
    7: "tuple_u8_u16_u32",
    8: """
        u64 i64 usize nonzero_u64 nonzero_i64 array_u16_4 array_string_2 array_str_2 tuple_pairs
        tuple_2_strings range_string range_incl_string tuple_str_bytes u64_vec_u16
    """,
    12: "duration",
    16: "u128 i128 uuid ipv6",
    24: "record",
    32: "array_u8_32",
    39: "tuple_11",
}
LEAST = {name: size for size, names in LEAST_SIZES.items() for name in names.split()}

LENDING_WAYS = ["buffer"]
OTHER_WAYS = ["copy", "unbuffered", "buffered"]
OWNED_WAYS = ["owned", "owned-unbuffered"]
BY_BYTE_WAYS = ["unbuffered-by-byte", "buffered-by-byte"]
PEEK_WAYS = LENDING_WAYS + OTHER_WAYS
WRITE_WAYS = ["needed", "to-buffer", "to-vec", "to-sink", "to-vec-sink"]

# A number of each type, of 16 bytes as long as it is, and an integer of variable length. Each is peeked at nine times
# and read.
_BYTES = "00000000000000400000000000c05e40"
PEEKED = [(order, "".join(2 * _BYTES[: 2 * size] for size in (1, 2, 4, 8, 16)) + "00") for order in ("le", "be")]


def folder_of(usage):
    """The folder of the programs: that of the argument, and without one that in which they are built here."""
    if len(sys.argv) > 2 or sys.argv[1:2] and not os.path.isdir(sys.argv[1]):
        sys.exit(usage)
    if sys.argv[1:]:
        return os.path.realpath(sys.argv[1])
    return subprocess.run([HERE + "/build"], stdout=subprocess.PIPE, check=True, text=True).stdout.strip()


class Programs:
    """The programs that tools/withheld/build leaves in a folder, and a scratch file."""

    def __init__(self, folder):
        self.folder = folder
        self.shim = self.folder + "/shim.so"
        self.scratch_folder = tempfile.TemporaryDirectory()
        self.scratch = self.scratch_folder.name + "/scratch"

    def ways(self, lines, withhold=True, path=None):
        """The answers of the program of this folder to lines."""
        env = {"LD_PRELOAD": self.shim} if withhold else {}
        ran = subprocess.run(
            [self.folder + "/ways", path or self.scratch],
            input=("\n".join(lines) + "\n").encode(),
            stdout=subprocess.PIPE,
            stderr=subprocess.DEVNULL,
            env=env,
        )
        answers = ran.stdout.decode().split("\n")[:-1]
        if ran.returncode != 0 or len(answers) != len(lines):
            after = lines[len(answers)] if len(answers) < len(lines) else "the last line"
            raise SystemExit(
                f"status {ran.returncode}, {len(answers)} answers to {len(lines)} lines; it ended at: {after[:200]}"
            )
        return answers

    def answering(self, data, withheld=None):
        """How the answering program ends over bytes, and what it wrote."""
        env = {"LD_PRELOAD": self.shim, "WITHHELD": withheld} if withheld else {}
        return subprocess.run(
            [self.folder + "/speedy_vectors"], input=data, stdout=subprocess.PIPE, stderr=subprocess.PIPE, env=env
        )


class Row:
    """An encoding, and the canonical encoding of the value that it encodes."""

    def __init__(self, order, name, encoding, written):
        self.order, self.name, self.encoding, self.written = order, name, encoding, written

    def asked(self, digits=None):
        """The line of the answering program."""
        digits = self.encoding if digits is None else digits
        return f'{self.order} {self.name} {digits or "-"}'

    def line(self, withheld, way, digits=None):
        return f"{withheld} {way} {self.asked(digits)}"

    def size(self):
        return len(self.encoding) // 2

    def answer(self, is_counted=True):
        return f'ok {self.size() if is_counted else "?"} {self.written or "-"}'


def test_rows():
    """The lines of the program's stored run that are answered with a value."""
    lines, answers = (open(PROGRAM + file).read().split("\n") for file in ("stdin", "stdout"))
    rows = []
    for line, answer in zip(lines, answers):
        if line.startswith(("le ", "be ")) and answer.startswith("ok "):
            order, name, digits = line.split()
            _, count, written = answer.split()
            rows.append(Row(order, name, digits.lower().strip("-")[: 2 * int(count)], written.strip("-")))
    return rows


def encoded(digits):
    """Digits with their repetitions written out."""
    parts = []
    for part in digits.split(","):
        item, _, times = part.partition("*")
        parts.append(item * int(times or 1))
    return "".join(parts)


def own_rows():
    """The rows of this folder."""
    rows = []
    for line in open(HERE + "/rows.txt"):
        if line.strip() and not line.startswith("#"):
            order, name, digits = line.split()
            digits = encoded(digits.strip("-"))
            rows.append(Row(order, name, digits, digits))
    return rows


def varint(number):
    """The shortest encoding of a number as an integer of variable length."""
    count = next(k for k in range(9) if k == 8 or number < 1 << 7 * (k + 1))
    first = 256 - (1 << 8 - count) + (number >> 8 * count if count < 8 else 0)
    return bytes([first]) + (number % (1 << 8 * count)).to_bytes(count, "little")


def varint_rows():
    """Integers of variable length round each power of 2, and some that look like noise, in both orders."""
    numbers = set()
    for n in range(64):
        power = 1 << n
        numbers |= {power, power - 1, (power - 1) << 1, n * 0x9E3779B97F4A7C15}
        numbers |= {power * odd for odd in (2, 5, 10, 21, 42, 85, 170)}
    encodings = sorted({varint(number % (1 << 64)).hex() for number in numbers})
    return [Row(order, "varint", digits, digits) for digits in encodings for order in ("le", "be")]


def all_rows():
    return test_rows() + own_rows() + varint_rows()


def places(size):
    """Where an encoding is cut: at each byte, and of a long one at its first and last bytes and some between."""
    if size <= 100:
        return range(size)
    return sorted(
        set(list(range(40)) + list(range(size - 40, size)) + list(range(0, size, 499)) + [4, 1023, 1024, 1028])
    )


def read_ways(name):
    """The ways of reading in memory that can read a type."""
    if name in BORROWING:
        return LENDING_WAYS
    owned = [] if name in NOT_OWNED else OWNED_WAYS
    return LENDING_WAYS + OTHER_WAYS + owned


def is_counted(way):
    """Whether an answer of this way says how many bytes were taken."""
    return way in ("buffer", "copy", "unbuffered", "unbuffered-by-byte", "owned", "owned-unbuffered")


class Tally:
    """How many things were looked at, and how many of them failed."""

    def __init__(self):
        self.seen = self.failed = 0

    def check(self, is_right, what):
        self.seen += 1
        if not is_right:
            self.failed += 1
            if self.failed <= 40:
                print("FAILED: " + what()[:400])

    def end(self):
        print(f"{self.seen} looked at, {self.failed} failed")
        raise SystemExit(1 if self.failed else 0)
