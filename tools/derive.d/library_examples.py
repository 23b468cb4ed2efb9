"""Writes the examples beside a library's header: one program in each language, which answers the same lines."""
from dumps import c_dumps, needs_struct, python_dump, rust_dumps
from kinds import answers

C = '''\
/* Answers lines `TYPE ORDER BYTES`, as run-examples says, by {name}.h. Made by `tools/derive --library`. */
#include "{name}.h"

#include <stdio.h>
#include <stdlib.h>
#include <string.h>

/* The most characters of a line. */
#define MOST 1000000

static char line[MOST];
static char kind[MOST];
static char hex[MOST];

/* Memory of just so many bytes. */
static unsigned char *room_of({name}_size count) {{
    unsigned char *found = (unsigned char *)malloc(count == 0 ? 1 : count);
    if (found == NULL) {{
        exit(1);
    }}
    return found;
}}

{dumps}/* What a check of a type answers, and the size that it sets. */
static unsigned int check(const unsigned char *bytes, {name}_size length, unsigned int order, {name}_size *size) {{
    *size = 0;
{arms}
    fprintf(stderr, "there is no type %s\\n", kind);
    exit(1);
}}

/* The bytes of a line, in memory of just their number, so that a read past them is found. */
static unsigned char *bytes_of(const char *text, {name}_size *length) {{
    {name}_size count = strcmp(text, "-") == 0 ? 0 : strlen(text) / 2;
    unsigned char *found = room_of(count);
    for ({name}_size at = 0; at < count; at++) {{
        char digits[3] = {{text[2 * at], text[2 * at + 1], 0}};
        found[at] = (unsigned char)strtoul(digits, NULL, 16);
    }}
    *length = count;
    return found;
}}

int main(void) {{
    unsigned int order;
    if ({name}_source() != {upper}_SOURCE) {{
        return 1;
    }}
    while (fgets(line, MOST, stdin) != NULL) {{
        {name}_size length, size;
        unsigned char *bytes;
        unsigned int answer;
        if (sscanf(line, "%s %u %s", kind, &order, hex) != 3) {{
            return 1;
        }}
        bytes = bytes_of(hex, &length);
        answer = check(bytes, length, order, &size);
        printf("%u %lu", answer, size);
        if (answer == 0) {{
            show(bytes, length, order, size);
        }}
        printf("\\n");
        free(bytes);
    }}
    return 0;
}}
'''

RUST = '''\
//! Answers lines `TYPE ORDER BYTES`, as run-examples says, by {name}.rs. Made by `tools/derive --library`.
use std::io::{{self, BufRead}};

mod {name};

use {name}::{{Kind, Order, Refused}};

/// What a check of a type answers.
fn check(kind: &str, bytes: &[u8], order: Order) -> Result<usize, Refused> {{
    match kind {{
{arms}
        _ => panic!("there is no type {{kind}}"),
    }}
}}

{dumps}/// The number of a kind.
fn number(kind: Kind) -> u32 {{
    match kind {{
{numbers}
        Kind::Other(number) => number,
    }}
}}

/// The bytes of a line.
fn bytes_of(hex: &str) -> Vec<u8> {{
    let digits = if hex == "-" {{ "" }} else {{ hex }};
    (0..digits.len() / 2).map(|at| u8::from_str_radix(&digits[2 * at..2 * at + 2], 16).expect("hex")).collect()
}}

fn main() {{
    assert!({name}::fits());
    for line in io::stdin().lock().lines() {{
        let line = line.expect("a line");
        let words: Vec<&str> = line.split(' ').collect();
        let order = match words[1] {{
            "0" => Order::LittleEndian,
            "1" => Order::BigEndian,
            _ => {{
                // The module takes no other order.
                println!("100 0");
                continue;
            }}
        }};
        let bytes = bytes_of(words[2]);
        match check(words[0], &bytes, order) {{
            Ok(size) => println!("0 {{size}}{{}}", show(words[0], &bytes, order, size)),
            Err(refused) => println!("{{}} {{}}", number(refused.kind), refused.at),
        }}
    }}
}}
'''

PYTHON = '''\
"""Answers lines `TYPE ORDER BYTES`, as run-examples says, by {name}.py. Made by `tools/derive --library`."""
{imports}import sys

import {name}

TYPES = {{
{arms}
}}


{dumps}def main():
    """Answers standard input."""
    for line in sys.stdin:
        kind, order, data = line.split()
        data = bytes.fromhex("" if data == "-" else data)
        try:
            print(0, TYPES[kind](data, int(order)) or 0, end="")
            print(show(kind, data, int(order)))
        except {name}.Refused as refused:
            print(int(refused.kind), refused.at)


main()
'''


def c_program(library):
    """The program in C, which is one in C++ too."""
    arms = []
    for it in library.types:
        call = "check_whole(bytes, length, order)" if it.is_whole else "check(bytes, length, order, size)"
        arms += [f'    if (strcmp(kind, "{it.snake}") == 0) {{',
                 f"        return {library.name}_{it.snake}_{call};", "    }"]
    return C.format(name=library.name, upper=library.name.upper(), arms="\n".join(arms), dumps=c_dumps(library))


def rust_program(library):
    """The program in Rust."""
    name = library.name
    arms = [f'        "{it.snake}" => {name}::{it.snake}::check_whole(bytes, order).map(|()| 0),' if it.is_whole
            else f'        "{it.snake}" => {name}::{it.snake}::check(bytes, order),' for it in library.types]
    numbers = [f"        Kind::{word} => {number}," for word, number, _ in answers()]
    return RUST.format(name=name, arms="\n".join(arms), numbers="\n".join(numbers),
                       dumps=rust_dumps(library))


def python_program(library):
    """The program in Python."""
    arms = [f'    "{it.snake}": {library.name}.{it.python}.check{"_whole" * it.is_whole},' for it in library.types]
    return PYTHON.format(name=library.name, arms="\n".join(arms), dumps=python_dump(library),
                         imports="import struct\n" if needs_struct(library) else "")
