#!/usr/bin/env python3
"""Compiles the calls of a library that `tools/derive --library` made, of code that nothing proves meanwhile.
usage: tools/unproved_library.py [--inlined] CRATE SOURCE OBJECT
  CRATE:  the folder of the library's crate
  SOURCE: the Rust file that it was made of
  OBJECT: where the object is left, for `build-library` in the folder `callers` of the crate
With --inlined, as of tools/unproved.py, it is as fast as a proved one, and takes longer to compile.
"""
import shutil
import subprocess
import sys
import tempfile
from pathlib import Path

TOP = Path(__file__).resolve().parent.parent
sys.path[:0] = [str(TOP / "tools" / "derive.d")]

from library import Library  # noqa: E402
from view_types import empty, shown_type  # noqa: E402


def with_main(text, library):
    """The module of calls as a program that calls each of them once, so that they are there."""
    name, order = library.name, "speedy::Endianness::LittleEndian"
    calls = [f"    total |= {name}_source();"]
    for it in library.types:
        call = f"{name}_{it.snake}"
        calls.append(f"    total |= {call}_check_whole(rt.alloc(), &[], 0);" if it.is_whole
                     else f"    total |= {call}_check(rt.alloc(), &[], 0, &mut size);")
        if it.path in library.views.by_path:
            path = "::".join(("crate", library.module, *it.path))
            read = f"speedy::Buffer::read_with_length::<{path}>(bytes, rt.alloc(), {order})"
            calls += [f"    if let (Ok(value), _) = {read} {{",
                      f"        let mut view: crate::views::{it.camel}View = View::of(&value);",
                      f"        total |= {call}_read(rt.alloc(), bytes, 0, &mut view, &mut size);",
                      "        let mut walk = Walk { left: bytes };",
                      f"        total |= {call}_next(rt.alloc(), &mut walk, 0, &mut view);"]
            if library.is_written(it):
                calls.append(f"        total |= {call}_write(rt.alloc(), &view, 0, &mut room, &mut size);")
            calls.append("    }")
    for it in library.listed:
        shown = shown_type(it).replace("'a ", "")
        calls += ["    let mut walk = Walk { left: bytes };", f"    let mut item: {shown} = {empty(it)};",
                  f"    total |= {name}_{it.label}_next(rt.alloc(), &mut walk, 0, &mut item);"]
    return f"""{text}
fn main(rt: HostRuntime) -> std::process::ExitCode {{
    let mut total: u32 = 0;
    let mut size = 0;
    let mut room: [u8; 8] = [0; 8];
    let bytes: &[u8] = &[];
{chr(10).join(calls)}
    std::process::ExitCode::from((total == 0 && size == 0) as u8)
}}
"""


def main(words):
    """Compiles a library."""
    is_inlined = words[:1] == ["--inlined"]
    words = words[is_inlined:]
    if len(words) != 3:
        print(__doc__, file=sys.stderr)
        return 2
    crate, source, made = map(Path, words)
    library = Library(crate.name, source.read_text(encoding="utf-8"), source.name)
    with tempfile.TemporaryDirectory() as work:
        program = Path(work, crate.name, "src")
        shutil.copytree(crate / "src", program)
        root = (program / "lib.rt").rename(program / "main.rt")
        root.write_text(with_main(root.read_text(encoding="utf-8"), library), encoding="utf-8")
        # The object's functions are named by its own name.
        inner = Path(work, f"{crate.name}.o")
        how = ["--inlined", root, inner, "3"] if is_inlined else [root, inner, "2"]
        command = [TOP / "tools" / "unproved.py", *how, "speedy"]
        done = subprocess.run(command, check=False).returncode
        if done == 0:
            shutil.copy(inner, made)
    return done


if __name__ == "__main__":
    sys.exit(main(sys.argv[1:]))
