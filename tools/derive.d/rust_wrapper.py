"""Writes the module of Rust over a library: safe functions over its calls."""
from kinds import TOO_SOON, answers
from rust_views import declaration, raw_lines, read_text
from views import lists

HEAD = '''\
//! The types of `{file}`, by the calls of `lib{name}.a`, whose proofs `rt lib` checks.
//!
//! Made from `{file}` by `tools/derive --library`: change that, and make this again.
//!
//! Copy this file into `src/` of a crate, and `build.rs` beside its `Cargo.toml`.
{docs}#![allow(dead_code)]

use std::fmt;
{uses}
/// The number of the file that this was made of.
const SOURCE: u32 = {source};

/// A byte order.
#[derive(Debug, Clone, Copy, PartialEq, Eq)]
#[repr(u32)]
pub enum Order {{
    LittleEndian = 0,
    BigEndian = 1,
}}

/// Why bytes are refused.
#[derive(Debug, Clone, Copy, PartialEq, Eq)]
pub enum Kind {{
{kinds}
    /// a number that this file does not know
    Other(u32),
}}

/// Bytes that were refused.
#[derive(Debug, Clone, Copy, PartialEq, Eq)]
pub struct Refused {{
    pub kind: Kind,
    /// How many bytes were read before that, or how many a buffer has to have that is too short.
    pub at: usize,
}}

impl Refused {{
    /// The refusal that a call answered.
    fn of(answer: u32, at: usize) -> Refused {{
        let kind = match answer {{
{arms}
            other => Kind::Other(other),
        }};
        Refused {{ kind, at }}
    }}

    /// Whether the bytes ended too soon, so that more of them may help.
    pub fn ends_too_soon(&self) -> bool {{
        matches!(self.kind, {soon})
    }}
}}

impl fmt::Display for Refused {{
    fn fmt(&self, f: &mut fmt::Formatter<'_>) -> fmt::Result {{
        write!(f, "{{:?}} after {{}} bytes", self.kind, self.at)
    }}
}}

impl std::error::Error for Refused {{}}

/// Whether the library was made of the same file as this module.
pub fn fits() -> bool {{
    // SAFETY: the call takes nothing.
    unsafe {{ {name}_source() == SOURCE }}
}}

unsafe extern "C" {{
    fn {name}_source() -> u32;
{calls}
}}
'''

CHECK = '''
/// {title}
pub mod {snake} {{
    /// Says whether bytes begin with an encoding of a `{path}`, and of how many bytes it is.
    pub fn check(bytes: &[u8], order: super::Order) -> Result<usize, super::Refused> {{
        let (start, length) = (bytes.as_ptr(), bytes.len());
        let mut size = 0;
        // SAFETY: so many bytes are there, they are only read, and nothing keeps a pointer.
        let answer = unsafe {{ super::{name}_{snake}_check(start, length, order as u32, &mut size) }};
        if answer == 0 {{ Ok(size) }} else {{ Err(super::Refused::of(answer, size)) }}
    }}
{reading}}}
'''

CHECK_WHOLE = '''
/// {title}
pub mod {snake} {{
    /// Says whether bytes, all of them, are an encoding of a `{path}`.
    pub fn check_whole(bytes: &[u8], order: super::Order) -> Result<(), super::Refused> {{
        // SAFETY: so many bytes are there, they are only read, and nothing keeps a pointer.
        let answer = unsafe {{ super::{name}_{snake}_check_whole(bytes.as_ptr(), bytes.len(), order as u32) }};
        if answer == 0 {{ Ok(()) }} else {{ Err(super::Refused::of(answer, 0)) }}
    }}
}}
'''


def documented(lines, indent):
    """Documentation in lines, the first of which stands behind its mark already."""
    return "".join(f"\n{indent}/// {it}".rstrip() for it in lines)


def rust_text(library):
    """The text of the module."""
    name = library.name
    calls = []
    for it in library.types:
        if it.is_whole:
            calls.append(f"    fn {name}_{it.snake}_check_whole(bytes: *const u8, length: usize, order: u32) -> u32;")
        else:
            calls.append(f"    fn {name}_{it.snake}_check(bytes: *const u8, length: usize, order: u32, "
                         "size: *mut usize) -> u32;")
        if it.path in library.views.by_path:
            calls.append(declaration(library, library.views.by_path[it.path]))
    found = HEAD.format(
        uses="use std::marker::PhantomData;\n" if lists(library.views) else "",
        file=library.file_name, name=name, source=library.source, calls="\n".join(calls),
        docs="".join(f"//! {it}".rstrip() + "\n" for it in ["", *library.docs]) if library.docs else "",
        kinds="\n".join(f"    /// {about}\n    {word}," for word, _, about in answers()),
        arms="\n".join(f"            {number} => Kind::{word}," for word, number, _ in answers()),
        soon=" | ".join(f"Kind::{word}" for word, number, _ in answers() if number in TOO_SOON))
    if library.views.by_path:
        found += "\n".join(raw_lines(library)) + "\n"
    for it in library.types:
        path = "::".join(it.path)
        view = library.views.by_path.get(it.path)
        reading = read_text(library, view) if view else ""
        title = (it.docs[0] if it.docs else f"`{path}`") + documented(it.docs[1:], "")
        found += (CHECK_WHOLE if it.is_whole else CHECK).format(title=title, snake=it.snake, path=path, name=name,
                                                                reading=reading)
    return found
