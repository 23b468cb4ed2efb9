"""Writes the scripts beside a library's header: those that build it and run its examples, and the examples."""
from library_examples import c_program, python_program, rust_program

BUILD_RS = '''\
//! Links the library: copy this beside `Cargo.toml`.
//!
//! The folder of `lib{name}.a` is that which the environment variable {upper}_FOLDER names, or
//! `{name}` beside this file.
fn main() {{
    let beside = format!("{{}}/{name}", std::env::var("CARGO_MANIFEST_DIR").unwrap_or_default());
    let folder = std::env::var("{upper}_FOLDER").unwrap_or(beside);
    println!("cargo:rerun-if-env-changed={upper}_FOLDER");
    println!("cargo:rerun-if-changed={{folder}}/lib{name}.a");
    println!("cargo:rustc-link-search=native={{folder}}");
    println!("cargo:rustc-link-lib=static={name}");
}}
'''

BUILD = r'''#!/usr/bin/env bash
# Builds lib@.a and lib@.so, in the folder `build` beside this script.
# usage: ./build-library [OBJECT]
#
# `rt lib` proves the crate first, with the libraries below it, as far as no check has. An OBJECT, which holds the same
# calls, takes the place of what that makes: so tests build without a proof. Made by `tools/derive --library`.
set -euo pipefail
here=$(realpath "$(dirname "$0")")
kit=$(dirname "$(rt doc)")
tools=$kit/toolchain/bin
work=$(mktemp -d)
trap 'rm -rf "$work"' EXIT
mkdir -p "$here/build"
echo '*' > "$here/build/.gitignore"
if [ $# = 0 ]; then
    (cd "$here/.." && rt lib)
    cp "$here/../out/lib@.a" "$work/calls.a"
else
    "$tools/llvm-ar" rcs "$work/calls.a" "$1"
fi

# Memory is that of the C library, by way of the kit's.
cp "$kit/c/liblibc_c.a" "$work/memory.a"
(cd "$work" && printf 'create lib@.a\naddlib calls.a\naddlib memory.a\nsave\nend\n' | "$tools/llvm-ar" -M)
cp "$work/lib@.a" "$here/build/"

# The calls alone are seen in the shared library. Whatever loads it has the C library.
printf '{ global: @_*; local: *; };\n' > "$work/seen"
cat > "$work/wanted" << 'CALLS'
@@CALLS@@
CALLS
"$tools/ld.lld" -shared -soname "lib@.so" --version-script "$work/seen" --gc-sections "@$work/wanted" \
    "$work/lib@.a" -o "$here/build/lib@.so"
'''

RUN_EXAMPLES = r'''#!/usr/bin/env bash
# Builds the programs answer.c, answer.rs and answer.py with the library in `build`, and compares what they answer.
# usage: ./run-examples [LINES [ANSWERS]]
#
# LINES is a file whose lines are `TYPE ORDER BYTES`, as `lines.txt`: the type as functions name it, the byte order as
# 0 (little endian) or 1 (big endian), and bytes in hex, or - for none. Each program answers each line by two numbers,
# the answer and the size; of a type that is read its value follows, as the walk and the read show it, and of one that
# is written `=` and the bytes that it is written as. All are to say the same, which is written to the file ANSWERS.
# Made by `tools/derive --library`.
set -uo pipefail
here=$(realpath "$(dirname "$0")")
library=$here/build/lib@.a
lines=${1:-$here/lines.txt}
work=$(mktemp -d)
trap 'rm -rf "$work"' EXIT
passed=0
failed=0

# Compiles a program, or says that it failed.
try() {
    local name=$1
    shift
    if "$@" > "$work/$name.log" 2>&1; then return 0; fi
    failed=$((failed + 1))
    echo "FAILED to build $name:"
    tail -n 20 "$work/$name.log"
    return 1
}

# Runs a program over the lines, and compares.
look() {
    local name=$1
    shift
    if "$@" < "$lines" > "$work/$name.said" && [ "$(wc -l < "$work/$name.said")" = "$(wc -l < "$lines")" ]; then
        [ -f "$work/first" ] || cp "$work/$name.said" "$work/first"
        if cmp -s "$work/first" "$work/$name.said"; then
            passed=$((passed + 1))
            return
        fi
    fi
    failed=$((failed + 1))
    echo "FAILED: $name"
    diff "$work/first" "$work/$name.said" | head -n 10
}

warnings="-Wall -Wextra -Werror -pedantic"
for compiler in cc gcc clang; do
    [ -n "$(command -v $compiler)" ] || continue
    try c-$compiler $compiler -std=c99 $warnings -O2 "$here/answer.c" "$library" -o "$work/c-$compiler" &&
        look c-$compiler "$work/c-$compiler"
done
for compiler in c++ g++ clang++; do
    [ -n "$(command -v $compiler)" ] || continue
    try cpp-$compiler $compiler -std=c++17 $warnings -O2 -x c++ "$here/answer.c" -x none "$library" \
        -o "$work/cpp-$compiler" && look cpp-$compiler "$work/cpp-$compiler"
done
# Where the compiler has them, its looks at memory and at what C leaves undefined.
printf 'int main(void) { return 0; }\n' > "$work/empty.c"
sanitizers="-fsanitize=address,undefined -fno-sanitize-recover=all"
if [ -n "$(command -v cc)" ] && cc $sanitizers "$work/empty.c" -o "$work/empty" 2> "$work/empty.log"; then
    try c-sanitized cc -std=c99 $warnings -g $sanitizers "$here/answer.c" "$library" -o "$work/c-sanitized" &&
        look c-sanitized "$work/c-sanitized"
else
    echo "no compiler here has AddressSanitizer"
fi
if [ -n "$(command -v rustc)" ]; then
    try rust rustc --edition 2024 -O -D warnings "$here/answer.rs" -L "$here/build" -l static=@ \
        -o "$work/rust" && look rust "$work/rust"
else
    echo "the example in Rust is left out: there is no rustc"
fi
if [ -n "$(command -v python3)" ]; then look python python3 -B "$here/answer.py"; fi
[ -z "${2:-}" ] || cp "$work/first" "$2"
echo "$passed passed, $failed failed"
[ "$failed" = 0 ]
'''


def lines_of(library):
    """Lines that the examples answer, for each type: no bytes, and zeros, in each order."""
    return "".join(f"{it.snake} {order} {data}\n" for it in library.types for order in (0, 1)
                   for data in ("-", "00" * 64)) + f"{library.types[0].snake} 2 -\n"


def texts(library):
    """Each file, by its name."""
    name, upper = library.name, library.name.upper()
    calls = "\n".join(f"--undefined={it}" for it in library.calls_made)
    return {
        "build.rs": BUILD_RS.format(name=name, upper=upper),
        "build-library": BUILD.replace("@@CALLS@@", calls).replace("lib@", f"lib{name}").replace(" @_*", f" {name}_*"),
        "run-examples": RUN_EXAMPLES.replace("static=@", f"static={name}").replace("lib@", f"lib{name}"),
        "lines.txt": lines_of(library),
        "answer.c": c_program(library),
        "answer.rs": rust_program(library),
        "answer.py": python_program(library),
    }
