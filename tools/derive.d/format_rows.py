"""The types of real formats as a library for `tools/try-library`, and the program in Rattle that answers their rows:
the inputs are bytes of the files that `crates/speedy_formats` keeps."""
import re
import subprocess
from pathlib import Path

TOP = Path(__file__).resolve().parent.parent.parent
FORMATS, ROWS = TOP / "crates" / "speedy_formats", TOP / "crates" / "speedy_derived" / "rows"
# Each format, with the files of its kind.
FILES = {"elf": ("exit.elf",), "pcap": ("little.pcap", "big.pcap"), "png": ("stripes.png",), "rtps": ("messages.hex",),
         "tzif": ("tokyo.tzif", "vienna.tzif"), "wav": ("tones.wav",), "zip": ("texts.zip",)}
# So many messages of a file of messages are taken, a byte order at most so many encodings of a type, and of a type that
# does not end with its input so many bytes at most.
MESSAGES, KEPT, LONGEST = 24, 3, 72
ANSWERS = '''\
//! What bytes are answered by the name of a type.
use crate::answer::{{answer_of_buffer, answer_of_whole}};
use speedy::Endianness;
use std::alloc::{{AllocError, Global}};
{functions}
/// The answer to bytes as the type of this name, or `None` where there is none.
pub fn answer_by_name(
    alloc: Global,
    order: Endianness,
    name: &str,
    bytes: &[u8],
) -> Result<Option<String>, AllocError> {{
    {calls}
    Ok(None)
}}
'''
OF_MODULE = '''
fn answer_{module}(alloc: Global, order: Endianness, name: &str, bytes: &[u8]) -> Result<Option<String>, AllocError> {{
    let text = match name {{
{arms}
        _ => return Ok(None),
    }};
    Ok(Some(text))
}}
'''
# The program has no other lists of types.
NONE_LISTED = '''\
//! No types are listed by hand here.
use speedy::Endianness;
use std::alloc::{AllocError, Global};

pub fn answer_listed(_: Global, _: Endianness, _: &str, _: &[u8]) -> Result<Option<String>, AllocError> {
    Ok(None)
}

pub fn answer_strictly(_: Global, _: &str, _: &str, _: &[u8]) -> Result<Option<String>, AllocError> {
    Ok(None)
}
'''


def text_of(name):
    """The Rust file of a format. No call has a parameter of a type, so types that have one are seen by the file
    alone."""
    text = (FORMATS / f"{name}.rs").read_text(encoding="utf-8")
    return re.sub(r"(?m)^pub struct (\w+<T>)", r"pub(crate) struct \1", text)


def source():
    """The Rust file of the library: a module for each format."""
    return "//! Types of real formats.\n" + "\n".join(f"pub mod {it} {{\n{text_of(it)}}}\n" for it in FILES)


def write_program(library, crate):
    """Writes the crate of the program, whose types are printed and written, each."""
    sources = crate / "src"
    sources.mkdir(parents=True)
    for name in FILES:
        text = re.sub(r"#\[derive\((.*?)(, Writable)?\)\]", r"#[derive(Debug, \1, Writable)]", text_of(name))
        (crate / f"{name}.rs").write_text(text, encoding="utf-8")
        command = [TOP / "tools" / "derive", crate / f"{name}.rs", sources / f"{name}.rt"]
        subprocess.run(command, check=True, capture_output=True)
    functions = ""
    for name in FILES:
        arms = []
        for it in (it for it in library.types if it.path[0] == name):
            call = "answer_of_whole" if it.is_whole else "answer_of_buffer"
            life = "<'_>" if f"pub struct {it.name}<'a>" in text_of(name) else ""
            arms.append(f'        "{it.snake}" => {call}::<crate::{name}::{it.name}{life}>(alloc, order, bytes)?,')
        functions += OF_MODULE.format(module=name, arms="\n".join(arms))
    calls = "\n    ".join(f"if let Some(text) = answer_{it}(alloc, order, name, bytes)? {{ return Ok(Some(text)); }}"
                          for it in FILES)
    main = re.sub(r"(?m)^pub mod \w+;\n", "", (ROWS / "main.rt.txt").read_text(encoding="utf-8"))
    modules = "".join(f"pub mod {it};\n" for it in ("answer", "by_name", "listed_answers", *FILES))
    made = {"main": main.replace("use by_name", modules + "\nuse by_name", 1), "listed_answers": NONE_LISTED,
            "answer": (ROWS / "answer.rt.txt").read_text(encoding="utf-8"),
            "by_name": ANSWERS.format(functions=functions, calls=calls)}
    for name, text in made.items():
        (sources / f"{name}.rt").write_text(text, encoding="utf-8")


def contents(name):
    """The bytes of the files of a format, or of messages."""
    for file in FILES[name]:
        data = (FORMATS / "data" / file).read_bytes()
        yield from map(bytes.fromhex, data.decode().split()[:MESSAGES]) if file.endswith(".hex") else [data]


def windows(library):
    """What encodings of each type are looked for in: its path, the byte order, and bytes of a file of its format from
    each place on."""
    for it in library.types:
        found = set()
        for data in contents(it.path[0]):
            for start in range(len(data)):
                found.add(data[start:] if it.is_whole else data[start:start + LONGEST])
        for order in ("le", "be"):
            yield from ((it, order, data) for data in sorted(found))


def encodings(library, answer):
    """Encodings that stand in the files, by the type and the byte order: the longest of each size up to a few.
    `answer` is the program's, of rows."""
    asked = list(windows(library))
    said = answer("".join(f"{order} {it.snake} {data.hex() or '-'}\n" for it, order, data in asked))
    found = {}
    for (it, order, data), line in zip(asked, said.splitlines()):
        value = re.match(r"(?:\d+|-) (\d+) ", line)
        if value:
            found.setdefault((it.snake, order), {}).setdefault(int(value[1]), data[:int(value[1])])
    return {key: [sizes[size] for size in sorted(sizes, reverse=True)[:KEPT]] for key, sizes in found.items()}
