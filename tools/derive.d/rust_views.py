"""Writes the views of a library in Rust: types of values that borrow from the bytes, and the calls that read them."""
from names import camel
from rust_lists import item_lines, list_lines, listed_lines
from views import lists, maybes

# What is used of C's structs.
RAW_BYTES = '''
/// Bytes as the library shows them.
#[derive(Clone, Copy)]
#[repr(C)]
struct RawBytes {
    at: *const u8,
    length: usize,
}

impl RawBytes {
    /// The bytes. They lie in those that were read, for as long as these are borrowed.
    unsafe fn get<'a>(self) -> &'a [u8] {
        // SAFETY: by the contract of the call, so many bytes lie there, within those that were read.
        unsafe { std::slice::from_raw_parts(self.at, self.length) }
    }

    /// Where bytes lie.
    fn of(bytes: &[u8]) -> RawBytes {
        RawBytes { at: bytes.as_ptr(), length: bytes.len() }
    }

    /// The text.
    unsafe fn text<'a>(self) -> &'a str {
        // SAFETY: as `get`, and by the contract of the call the text is UTF-8.
        unsafe { std::str::from_utf8_unchecked(self.get()) }
    }
}
'''

READ = '''
    /// Reads the value that the bytes begin with, and says of how many bytes it is.
    pub fn read{life}(
        bytes: &{a}[u8],
        order: super::Order,
    ) -> Result<({name}{life}, usize), super::Refused> {{
        let mut raw = std::mem::MaybeUninit::<super::Raw{camel}>::uninit();
        let mut size = 0;
        // SAFETY: so many bytes are there, they are only read, and what is written is not read before.
        let answer = unsafe {{
            super::{library}_{snake}_read(bytes.as_ptr(), bytes.len(), order as u32, raw.as_mut_ptr(), &mut size)
        }};
        if answer != 0 {{
            return Err(super::Refused::of(answer, size));
        }}
        // SAFETY: the view is set, and shows bytes of those that were read.
        Ok((unsafe {{ super::{snake}_of(raw.assume_init()) }}, size))
    }}

    /// The values that stand one after another, up to the end of the bytes or to the first that is refused, `at` where
    /// it begins.
    pub fn walk{life}(
        bytes: &{a}[u8],
        order: super::Order,
    ) -> impl Iterator<Item = Result<{name}{life}, super::Refused>>{captured} {{
        let mut at = 0;
        std::iter::from_fn(move || {{
            let left = bytes.get(at..).filter(|left| !left.is_empty())?;
            match read(left, order) {{
                Ok((_, 0)) => None,
                Ok((value, size)) => {{
                    at += size;
                    Some(Ok(value))
                }}
                Err(refused) => {{
                    let refused = super::Refused {{ at, ..refused }};
                    at = bytes.len();
                    Some(Err(refused))
                }}
            }}
        }})
    }}
'''

WRITE = '''
    impl {name}{anonymous} {{
        /// Writes the value to the front of the buffer, in its canonical encoding, and says how many bytes that takes.
        /// Where the buffer is shorter, `at` of the error says how many are needed.
        pub fn write_to(&self, buffer: &mut [u8], order: super::Order) -> Result<usize, super::Refused> {{
            let raw = super::{snake}_raw(*self);
            let (start, room) = (buffer.as_mut_ptr(), buffer.len());
            let mut size = 0;
            // SAFETY: what the view shows stays while `self` is borrowed, so many bytes can be written, and nothing
            // keeps a pointer.
            let answer = unsafe {{ super::{library}_{snake}_write(&raw, order as u32, start, room, &mut size) }};
            if answer == 0 {{ Ok(size) }} else {{ Err(super::Refused::of(answer, size)) }}
        }}

        /// The canonical encoding of the value.
        pub fn to_bytes(&self, order: super::Order) -> Result<Vec<u8>, super::Refused> {{
            let mut bytes = Vec::new();
            super::append(&mut bytes, |buffer| self.write_to(buffer, order))?;
            Ok(bytes)
        }}
    }}
'''
# What makes structs of C, and the bytes that are written of them.
MAKING = '''
/// A struct of C in which nothing is set.
///
/// # Safety
///
/// `T` is a struct of numbers and pointers.
unsafe fn zeros<T>() -> T {
    // SAFETY: zeros are numbers and pointers.
    unsafe { std::mem::zeroed() }
}

/// Appends what is written to a buffer, which grows as the write says.
fn append(buffer: &mut Vec<u8>, write: impl Fn(&mut [u8]) -> Result<usize, Refused>) -> Result<(), Refused> {
    let begin = buffer.len();
    buffer.resize(begin + 64, 0);
    loop {
        match write(&mut buffer[begin..]) {
            Ok(size) => {
                buffer.truncate(begin + size);
                return Ok(());
            }
            Err(Refused { kind: Kind::OutputBufferIsTooSmall, at }) => buffer.resize(begin + at, 0),
            Err(refused) => {
                buffer.truncate(begin);
                return Err(refused);
            }
        }
    }
}
'''


def raw(kind):
    """The type that a struct of C has for a kind."""
    if kind.what == "array":
        return f"[{kind.of}; {kind.count}]"
    simple = {"number": kind.of, "flag": "u8", "char": "u32", "text": "RawBytes", "bytes": "RawBytes", "float": kind.of,
              "list": "RawList"}
    if kind.what in simple:
        return simple[kind.what]
    return f"Raw{kind.of.camel if kind.what == 'own' else camel(kind.label)}"


def life(it):
    """The lifetime of what borrows."""
    return "<'a>" if it.borrows else ""


def owned(kind):
    """The type of a value."""
    if kind.what == "array":
        return f"[{kind.of}; {kind.count}]"
    if kind.what == "maybe":
        return f"Option<{owned(kind.of)}>"
    if kind.what == "list":
        return f"super::List<'a, {owned(kind.of)}>"
    if kind.what == "own":
        return f"super::{kind.of.snake}::{kind.of.camel}{life(kind.of)}"
    return {"number": kind.of, "flag": "bool", "char": "char", "text": "&'a str", "bytes": "&'a [u8]",
            "float": kind.of}[kind.what]


def taken(kind, place):
    """The expression of a value of what a struct of C has at a place."""
    return {"flag": f"{place} != 0", "char": f"char::from_u32({place}).unwrap_or(char::REPLACEMENT_CHARACTER)",
            "text": f"unsafe {{ {place}.text() }}", "bytes": f"unsafe {{ {place}.get() }}",
            "list": f"unsafe {{ {place}.list() }}",
            "own": f"unsafe {{ {kind.of.snake}_of({place}) }}" if kind.what == "own" else "",
            "maybe": f"if {place}.is_some == 0 {{ None }} else {{ Some({taken(kind.of, place + '.value')}) }}"
            if kind.what == "maybe" else ""}.get(kind.what, place)


def set_of(kind, place):
    """The expression of what a struct of C has of a value."""
    if kind.what in ("own", "maybe"):
        return f"self::{kind.of.snake if kind.what == 'own' else kind.label}_raw({place})"
    return {"flag": f"{place} as u8", "char": f"{place} as u32", "text": f"RawBytes::of({place}.as_bytes())",
            "bytes": f"RawBytes::of({place})", "list": f"RawList::of({place})"}.get(kind.what, place)


def struct(name, fields):
    """A struct of C."""
    return ["", "#[derive(Clone, Copy)]", "#[repr(C)]", f"struct {name} {{",
            *(f"    {field}: {kind}," for field, kind in fields), "}"]


def raw_lines(library):
    """The structs of C and what makes values of them."""
    lines = RAW_BYTES.split("\n")[:-1] if any(it.borrows for it in library.views) else []
    written = [it for it in library.views if it.item.writable]
    if lists(library.views):
        lines += list_lines(bool(lists(written))) + listed_lines(library.listed, bool(lists(written)))
    for kind in maybes(library.views):
        lines += struct(raw(kind), [("is_some", "u8"), ("value", raw(kind.of))])
    for view in library.views:
        if view.cases is None:
            lines += struct(f"Raw{view.camel}", [(it.name, raw(it.kind)) for it in view.fields])
        else:
            for case in view.cases:
                if case.fields:
                    lines += struct(f"Raw{view.camel}{case.name}", [(it.name, raw(it.kind)) for it in case.fields])
            lines += struct(f"Raw{view.camel}", [("tag", "u32"), *(
                (case.snake, f"Raw{view.camel}{case.name}") for case in view.cases if case.fields)])
        lines += made_lines(view)
        if view.item.writable:
            lines += set_lines(view)
    for kind in lists(library.views):
        lines += item_lines(kind.of.of, kind in lists(written)) if kind.of.what == "own" else []
    lines += [line for kind in maybes(written) for line in option_lines(kind)]
    return lines + (MAKING.split("\n")[:-1] if written else [])


def option_lines(kind):
    """The function that makes a struct of C of an option."""
    value = owned(kind).replace("&'a ", "&").replace("'a", "'_").replace("super::", "")
    return ["", "/// The view that shows an option.", f"fn {kind.label}_raw(value: {value}) -> {raw(kind)} {{",
            "    match value {", "        None => unsafe { self::zeros() },",
            f"        Some(it) => {raw(kind)} {{ is_some: 1, value: {set_of(kind.of, 'it')} }},", "    }", "}"]


def set_lines(view):
    """The function that makes a struct of C of a value."""
    path, name = f"{view.snake}::{view.camel}", f"Raw{view.camel}"
    anonymous = "<'_>" if view.borrows else ""
    lines = ["", "/// The view that shows a value.", f"fn {view.snake}_raw(value: {path}{anonymous}) -> {name} {{"]
    if view.cases is None:
        inner = [f"        {it.name}: {set_of(it.kind, f'value.{it.name}')}," for it in view.fields]
        return [*lines, f"    {name} {{", *inner, "    }", "}"]
    lines.append("    match value {")
    for case in view.cases:
        if not case.fields:
            lines += [f"        {path}::{case.name} => {name} {{",
                      f"            tag: {case.tag},", "            ..unsafe { self::zeros() }", "        },"]
            continue
        names = ", ".join(it.name for it in case.fields)
        inner = [f"                {it.name}: {set_of(it.kind, it.name)}," for it in case.fields]
        lines += [f"        {path}::{case.name} {{ {names} }} => {name} {{", f"            tag: {case.tag},",
                  f"            {case.snake}: {name}{case.name} {{", *inner, "            },",
                  "            ..unsafe { self::zeros() }", "        },"]
    return [*lines, "    }", "}"]


def made_lines(view):
    """The function that makes a value of a struct of C."""
    path = f"{view.snake}::{view.camel}"
    head = f"unsafe fn {view.snake}_of{life(view)}(raw: Raw{view.camel}) -> {path}{life(view)} {{"
    lines = ["", "/// The value that a view shows.", head]
    if view.cases is None:
        inner = [f"        {it.name}: {taken(it.kind, f'raw.{it.name}')}," for it in view.fields]
        return [*lines, f"    {path} {{", *inner, "    }", "}"]
    lines.append("    match raw.tag {")
    for at, case in enumerate(view.cases):
        tag = "_" if at == len(view.cases) - 1 else case.tag
        inner = [f"            {it.name}: {taken(it.kind, f'raw.{case.snake}.{it.name}')}," for it in case.fields]
        lines += [f"        {tag} => {path}::{case.name} {{", *inner, "        },"] if inner else [
            f"        {tag} => {path}::{case.name},"]
    return [*lines, "    }", "}"]


def type_text(view):
    """The type of a value, for its module."""
    lines = ["    /// A value.", "    #[derive(Debug, Clone, Copy, PartialEq)]"]
    if view.cases is None:
        lines += [f"    pub struct {view.camel}{life(view)} {{",
                  *(f"        pub {it.name}: {owned(it.kind)}," for it in view.fields), "    }"]
    else:
        lines.append(f"    pub enum {view.camel}{life(view)} {{")
        for case in view.cases:
            fields = ", ".join(f"{it.name}: {owned(it.kind)}" for it in case.fields)
            lines.append(f"        {case.name}{f' {{ {fields} }}' if fields else ''},")
        lines.append("    }")
    return "\n".join(["", *lines]) + "\n"


def read_text(library, view):
    """The functions of a type's module that read it."""
    found = type_text(view) + READ.format(
        library=library.name, snake=view.snake, camel=view.camel, name=view.camel, life=life(view),
        a="'a " if view.borrows else "", captured=" + 'a" if view.borrows else " + '_")
    if view.item.writable:
        found += WRITE.format(library=library.name, snake=view.snake, name=view.camel,
                              anonymous="<'_>" if view.borrows else "")
    return found


def declaration(library, view):
    """The declarations of the calls that read a type, and write it."""
    read = f"    fn {library.name}_{view.snake}_read(\n        bytes: *const u8,\n        length: usize,\n" \
           f"        order: u32,\n        view: *mut Raw{view.camel},\n        size: *mut usize,\n    ) -> u32;"
    if not view.item.writable:
        return read
    return f"{read}\n    fn {library.name}_{view.snake}_write(\n        view: *const Raw{view.camel},\n" \
           "        order: u32,\n        buffer: *mut u8,\n        room: usize,\n        size: *mut usize,\n" \
           "    ) -> u32;"
