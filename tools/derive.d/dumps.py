"""Writes what the examples of a library print of values: the fields one after another, in each language the same.

A number is printed in decimal, a flag as 0 or 1, a character as its number, a float as that of its bits, texts and
bytes in hex or as `-`, an option as `none` or `some` and its value, a list as the number of its items and these, and a
variant as its name before its fields. Behind a value that can be written stand `=` and the bytes that it is written
as."""
from c_views import c_type, next_of
from rust_views import owned
from views import lists

FORMATS = {"u8": "u", "u16": "u", "u32": "u", "u64": "lu", "i8": "d", "i16": "d", "i32": "d", "i64": "ld"}
C_HEX = '''\
/* Prints bytes in hex, or `-`. */
static void print_hex(const unsigned char *start, {name}_size length) {{
    printf(length == 0 ? " -" : " ");
    for ({name}_size at = 0; at < length; at++) {{
        printf("%02x", start[at]);
    }}
}}

'''
C_BYTES = '''\
static void print_bytes(struct {name}_bytes it) {{
    print_hex(it.at, it.length);
}}

'''
C_WRITE = '''\
/* Prints what is written of a view, in memory of just so many bytes. One byte less is too short. */
static void write_{snake}(const struct {name}_{snake} *it, unsigned int order) {{
    {name}_size size = 0, needed;
    unsigned char *buffer = room_of(0);
    unsigned int answer = {name}_{snake}_write(it, order, buffer, 0, &size);
    free(buffer);
    if (answer != (size == 0 ? {upper}_OK : {upper}_OUTPUT_BUFFER_IS_TOO_SMALL)) {{
        exit(1);
    }}
    buffer = room_of(size);
    if ({name}_{snake}_write(it, order, buffer, size, &needed) != {upper}_OK || needed != size) {{
        exit(1);
    }}
    printf(" =");
    print_hex(buffer, size);
    if (size != 0 && ({name}_{snake}_write(it, order, buffer, size - 1, &needed) != {upper}_OUTPUT_BUFFER_IS_TOO_SMALL
        || needed != size)) {{
        exit(1);
    }}
    free(buffer);
}}

'''
C_FLOATS = '''\
/* Prints the bits of a float. */
static void print_bits(const void *float_at, {name}_size size) {{
    unsigned long bits = 0;
    memcpy(&bits, float_at, size);
    printf(" %lu", bits);
}}

'''
C_LIST = '''\
/* Prints a list, which has to hold just as many items as it says. */
static void print_{label}(struct {name}_list it) {{
    printf(" %lu", it.count);
    for ({name}_size at = 0; at < it.count; at++) {{
        {item} item;
        if ({next}(&it.items, it.order, &item) != {upper}_OK) {{
            exit(1);
        }}
        {print}
    }}
    if (it.items.left.length != 0) {{
        exit(1);
    }}
}}

'''
C_SHOW = '''\
/* Reads what was checked, and prints it. It has to be of the same size, also as the one value of a walk. */
static void show(const unsigned char *bytes, {name}_size length, unsigned int order, {name}_size size) {{
{arms}
    (void)bytes, (void)length, (void)order, (void)size;
}}

'''
C_ARM = '''\
    if (strcmp(kind, "{snake}") == 0) {{
        struct {name}_{snake} view, again;
        struct {name}_walk walk;
        {name}_size found;
        walk.left.at = bytes;
        walk.left.length = length;
        if ({name}_{snake}_read(bytes, length, order, &view, &found) != 0 || found != size
            || {name}_{snake}_next(&walk, order, &again) != 0 || walk.left.at != bytes + size
            || walk.left.length != length - size) {{
            exit(1);
        }}
        print_{snake}(&again);
        print_{snake}(&view);{write}
    }}'''
RUST_SHOW = '''\
/// Reads what was checked, and prints it. It has to be of the same size.
#[allow(unused_variables)]
fn show(kind: &str, bytes: &[u8], order: Order, size: usize) -> String {{
    match kind {{
{arms}
        _ => String::new(),
    }}
}}

{bytes}{functions}'''
RUST_ARM = '''\
        "{snake}" => {{
            let (value, read) = {name}::{snake}::read(bytes, order).expect("a value");
            let walked = {name}::{snake}::walk(bytes, order).next();
            assert!(read == size);
            let again = if size == 0 {{ value }} else {{ walked.expect("one").expect("the same") }};
            say_{snake}(&again) + &say_{snake}(&value){write}
        }}'''
RUST_WRITE = '''\
/// What is written of a value. A buffer of one byte less is too short.
fn written(
    bytes: Result<Vec<u8>, Refused>,
    write: impl Fn(&mut [u8]) -> Result<usize, Refused>,
) -> String {
    let bytes = bytes.expect("bytes");
    if let Some(less) = bytes.len().checked_sub(1) {
        let short = write(&mut vec![0; less]).expect_err("too short");
        assert!(short.kind == Kind::OutputBufferIsTooSmall && short.at == bytes.len());
    }
    format!(" ={}", hex(&bytes))
}

'''
RUST_BYTES = '''\
/// Bytes in hex, or `-`.
fn hex(bytes: &[u8]) -> String {
    let digits: String = bytes.iter().map(|it| format!("{it:02x}")).collect();
    if digits.is_empty() { " -".to_string() } else { format!(" {digits}") }
}

'''
PYTHON = '''\
def shown(value):
    """A value as words."""
    if value is None:
        return " none"
    if isinstance(value, (bytes, str)):
        return f" {{(value.encode() if isinstance(value, str) else value).hex() or '-'}}"
    if isinstance(value, tuple):
        return "".join(map(shown, value))
    return f" {{int(value)}}"


def show(kind, data, order):
    """Reads what was checked, and says what it is."""
    if kind not in SHOWN:
        return ""
    read, say = SHOWN[kind]
    value = read(data, order)[0]
    text = say(value)
    return text + text + (" =" + shown(value.to_bytes(order)) if hasattr(value, "to_bytes") else "")


{functions}
SHOWN = {{
{arms}
}}


'''


# In C.

def c_print(kind, place):
    """The statements that print what a view has at a place."""
    if kind.what == "number":
        return f'printf(" %{FORMATS[kind.of]}", {place});'
    if kind.what in ("flag", "char"):
        return f'printf(" %u", {place});'
    if kind.what == "float":
        return f"print_bits(&{place}, sizeof {place});"
    if kind.what in ("text", "bytes"):
        return f"print_bytes({place});"
    if kind.what == "array":
        if kind.of == "u8":
            return " ".join(['printf(" ");', *(f'printf("%02x", {place}[{at}]);' for at in range(kind.count))]) \
                if kind.count else 'printf(" -");'
        return " ".join(f'printf(" %{FORMATS[kind.of]}", {place}[{at}]);' for at in range(kind.count))
    if kind.what == "own":
        return f"print_{kind.of.snake}(&{place});"
    if kind.what == "list":
        return f"print_{kind.label}({place});"
    return f'if ({place}.is_some) {{ printf(" some"); {c_print(kind.of, place + ".value")} }} else ' \
           '{ printf(" none"); }'


def c_function(library, view):
    """The function that prints a view."""
    lines = [f"static void print_{view.snake}(const struct {library.name}_{view.snake} *it) {{"]
    if view.cases is None:
        lines += [f"    {c_print(it.kind, f'it->{it.name}')}" for it in view.fields]
    for case in view.cases or ():
        lines.append(f"    if (it->tag == {case.tag}) {{")
        lines.append(f'        printf(" {case.name}");')
        lines += [f"        {c_print(it.kind, f'it->{case.snake}.{it.name}')}" for it in case.fields]
        lines.append("    }")
    return "\n".join([*lines, "}", "", ""])


def c_list(library, kind):
    """The function that prints a list."""
    return C_LIST.format(name=library.name, upper=library.name.upper(), label=kind.label, next=next_of(library, kind),
                         item=c_type(library, kind.of)[0], print=c_print(kind.of, "item"))


def kinds_of(library):
    """All kinds of fields, with those within."""
    found = []

    def add(kind):
        found.append(kind)
        if kind.what in ("maybe", "list"):
            add(kind.of)

    for view in library.views:
        for kind in view.kinds:
            add(kind)
    return {it.what for it in found}


def c_dumps(library):
    """What the program in C prints values by."""
    kinds, name = kinds_of(library), library.name
    written = [it for it in library.views if it.item.writable]
    found = C_HEX.format(name=name) if written or kinds & {"text", "bytes"} else ""
    found += C_BYTES.format(name=name) if kinds & {"text", "bytes"} else ""
    found += C_FLOATS.format(name=name) if "float" in kinds else ""
    listed = {it.label: it for it in lists(library.views)}
    for view in library.views:
        # Each list behind its items, and before what holds it.
        for it in lists([view]):
            found += c_list(library, listed.pop(it.label)) if it.label in listed else ""
        found += c_function(library, view)
    found += "".join(C_WRITE.format(name=name, upper=name.upper(), snake=it.snake) for it in written)
    arms = "\n".join(C_ARM.format(name=name, snake=it.snake, write=f"\n        write_{it.snake}(&view, order);" * (
        it in written)) for it in library.views)
    return found + C_SHOW.format(name=name, arms=arms)


# In Rust.

def rust_say(kind, place):
    """The expression of a text of what a value has at a place."""
    if kind.what == "own":
        return f"say_{kind.of.snake}(&{place})"
    if kind.what in ("number", "flag", "char", "float"):
        number = {"flag": f"{place} as u8", "char": f"{place} as u32", "float": f"{place}.to_bits()"}
        return f'format!(" {{}}", {number.get(kind.what, place)})'
    if kind.what in ("text", "bytes"):
        return f"hex({place}{'.as_bytes()' if kind.what == 'text' else ''})"
    if kind.what == "array":
        if kind.of == "u8":
            return f"hex(&{place})"
        return f'{place}.iter().map(|it| format!(" {{it}}")).collect::<String>()'
    if kind.what == "list":
        items = f'{place}.iter().map(|it| {rust_say(kind.of, "it")}).collect::<String>()'
        return f'format!(" {{}}", {place}.len()) + &{items}'
    return f'match {place} {{ Some(it) => " some".to_string() + &{rust_say(kind.of, "it")}, None => " none".into() }}'


def rust_function(library, view):
    """The function that says a value."""
    path = f"{library.name}::{view.snake}::{view.camel}"
    life = "<'_>" if view.borrows else ""
    lines = [f"fn say_{view.snake}(it: &{path}{life}) -> String {{"]
    if view.cases is None:
        parts = [rust_say(it.kind, f"it.{it.name}") for it in view.fields]
        return "\n".join([*lines, "    [", *(f"        {it}," for it in parts), "    ]", "    .concat()", "}", "", ""])
    lines.append("    match *it {")
    for case in view.cases:
        names = ", ".join(it.name for it in case.fields)
        parts = [f'" {case.name}".to_string()', *(rust_say(it.kind, it.name) for it in case.fields)]
        pattern = f" {{ {names} }}" if names else ""
        lines += [f"        {path}::{case.name}{pattern} => [", *(f"            {it}," for it in parts),
                  "        ]", "        .concat(),"]
    return "\n".join([*lines, "    }", "}", "", ""])


def rust_dumps(library):
    """What the program in Rust prints values by."""
    kinds, name, arms = kinds_of(library), library.name, []
    for it in library.views:
        write = "\n                + &written(value.to_bytes(order), |buffer| value.write_to(buffer, order))"
        arms.append(RUST_ARM.format(name=name, snake=it.snake, write=write * it.item.writable))
    functions = "".join(rust_function(library, it) for it in library.views)
    is_written = any(it.item.writable for it in library.views)
    functions = RUST_WRITE * is_written + functions
    has_bytes = is_written or kinds & {"text", "bytes"} or any(
        "[u8" in owned(kind) for it in library.views for kind in it.kinds)
    return RUST_SHOW.format(arms="\n".join(arms), functions=functions, bytes=RUST_BYTES if has_bytes else "")


# In Python.

def python_say(kind, place):
    """The expression of a text of what a value has at a place."""
    if kind.what == "own":
        return f"say_{kind.of.snake}({place})"
    if kind.what == "char":
        return f"shown(ord({place}))"
    if kind.what == "float":
        form, number = ("f", "I") if kind.of == "f32" else ("d", "Q")
        return f'shown(struct.unpack("<{number}", struct.pack("<{form}", {place}))[0])'
    if kind.what == "list":
        return f'"".join((shown(len({place})), *({python_say(kind.of, "it")} for it in {place})))'
    if kind.what == "maybe":
        return f'(shown(None) if {place} is None else " some" + {python_say(kind.of, place)})'
    return f"shown({place})"


def python_dump(library):
    """What the program in Python prints values by."""
    functions, arms = "", []
    for view in library.views:
        functions += f'def say_{view.snake}(it):\n    """A value as words."""\n'
        if view.cases is None:
            parts = "".join(f"        {python_say(it.kind, f'it.{it.python}')},\n" for it in view.fields)
            functions += f'    return "".join((\n{parts}    ))\n\n\n'
        for case in view.cases or ():
            parts = [f'" {case.name}"', *(python_say(it.kind, f"it.{it.in_case}") for it in case.fields)]
            parts = "".join(f"            {it},\n" for it in parts)
            functions += f"    if isinstance(it, {library.name}.{view.exported.python}.{case.name}):\n" \
                         f'        return "".join((\n{parts}        ))\n'
        functions += "    raise ValueError(it)\n\n\n" if view.cases is not None else ""
        arms.append(f'    "{view.snake}": ({library.name}.{view.exported.python}.read, say_{view.snake}),')
    found = PYTHON.format(functions=functions.rstrip("\n") + "\n" if functions else "", arms="\n".join(arms))
    return found


def needs_struct(library):
    """Whether the program in Python takes floats apart."""
    return "float" in kinds_of(library)


