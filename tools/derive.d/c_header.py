"""Writes the header of a library: its calls for callers in C and C++."""
import textwrap

from c_views import item_lines, read_lines, struct_lines
from kinds import TOO_SOON, answers, snake_upper

WIDTH = 116


def comment(lines):
    """A comment of these lines."""
    safe = [it.replace("*/", "* /").replace("/*", "/ *").rstrip() for it in lines] or [""]
    if len(safe) == 1 and len(safe[0]) <= WIDTH - 4:
        return [f"/* {safe[0]} */"]
    body = [f"/* {safe[0]}", *(f"   {it}".rstrip() for it in safe[1:])]
    return [*body[:-1], f"{body[-1]} */"]


def filled(text):
    """A text in lines."""
    return textwrap.wrap(text, WIDTH - 6, break_long_words=False, break_on_hyphens=False)


def enum_lines(name, rows):
    """An enum of names, numbers and meanings."""
    last = len(rows) - 1
    found = [f"enum {name} {{"]
    for at, (word, number, about) in enumerate(rows):
        found += [f"    /* {line} */" for line in filled(about)]
        found.append(f"    {word} = {number}{',' if at < last else ''}")
    return [*found, "};"]


def call_lines(library, it):
    """The call of a type."""
    name, path = library.name, "::".join(it.path)
    about = [f"`{path}`: {it.docs[0]}" if it.docs else f"`{path}`", *it.docs[1:], ""]
    if it.is_whole:
        about += filled("Says whether all of the bytes are an encoding of one: 0 where they are, and else why not.")
        found = f"unsigned int {name}_{it.snake}_check_whole(\n" \
                f"    const unsigned char *bytes, {name}_size length, unsigned int order);"
    else:
        about += filled("Says whether the bytes begin with an encoding of one: 0 where they do, and `size` is then how "
                        "many bytes it has; else why not, and `size` is how many bytes were read before that.")
        found = f"unsigned int {name}_{it.snake}_check(\n" \
                f"    const unsigned char *bytes, {name}_size length, unsigned int order, {name}_size *size);"
    return [*comment(about), found, ""]


def owed_lines():
    """What a caller has to hold to, which no proof sees."""
    return comment([
        "What each call relies on, and no proof sees:",
        "- `bytes` is not null, even where `length` is 0, and so many bytes can be read there.",
        "- `size`, `view`, `walk` and `item` are not null, point to no two overlapping places, and can be written.",
        "- What stands in `view` before a read is not read. What it shows after it lies in the bytes of that call.",
        "- A view that is written was set by a read, or began as zeros. Where a `length` in it is not 0, so many bytes",
        "  can be read at the pointer beside it. The structs of other variants than that of the tag do not matter.",
        "- `buffer` is not null, even where `room` is 0, and so many bytes can be read and written there. No byte of",
        "  it lies in the view, or in what the view shows.",
        "- Nothing writes to the bytes before the call returns. No call changes them, or keeps a pointer.",
        "- `malloc`, `realloc` and `free` are those of the C library, or keep its promises.",
        "- No call is made from a signal handler, or in a process forked from one with several threads.",
        "Calls may be made from several threads at once."])


def header_text(library):
    """The text of the header."""
    name, upper = library.name, library.name.upper()
    head = [f"The types of `{library.file_name}`, for callers in C and C++. It includes no other header."]
    head += ["", f"Made from `{library.file_name}` by `tools/derive --library`: change that, and make this again."]
    head += ["", *library.docs] if library.docs else []
    rows = [(f"{upper}_OK", 0, "the bytes are as they should be")]
    rows += [(f"{upper}_{snake_upper(word)}", number, about) for word, number, about in answers()]
    orders = [(f"{upper}_LITTLE_ENDIAN", 0, "the least digit first"),
              (f"{upper}_BIG_ENDIAN", 1, "the greatest digit first")]
    soon = " || ".join(f"(answer) == {it}u" for it in TOO_SOON)
    lines = [
        *comment(head), f"#ifndef {upper}_H", f"#define {upper}_H", "",
        *comment(["The version of what crosses: in one version no name, number or layout below gets another meaning."]),
        f"#define {upper}_VERSION 1", "",
        *comment([f"The number of the file that this was made of: `{name}_source()` is that of the library."]),
        f"#define {upper}_SOURCE {library.source}u", "",
        "#ifdef __cplusplus", 'extern "C" {', "#endif", "",
        *comment(["A number of bytes. x86-64, but not Windows: the next line fails to compile elsewhere."]),
        f"typedef unsigned long {name}_size;",
        f"typedef char {name}_fits[sizeof({name}_size) == 8 && sizeof(unsigned int) == 4 ? 1 : -1];", "",
        *comment(["What calls answer."]), *enum_lines(f"{name}_answer", rows), "",
        *comment(["Whether an answer says that the bytes ended too soon, so that more of them may help."]),
        f"#define {upper}_ENDS_TOO_SOON(answer) ({soon})", "",
        *comment(["Byte orders."]), *enum_lines(f"{name}_order", orders), "",
        *owed_lines(), "",
        *comment([f"Tells the file that the library was made of: {upper}_SOURCE, where this header fits it."]),
        f"unsigned int {name}_source(void);", "",
    ]
    if library.views.by_path:
        lines += struct_lines(library)
    for it in library.types:
        lines += call_lines(library, it)
        if it.path in library.views.by_path:
            lines += read_lines(library, library.views.by_path[it.path])
    for it in library.listed:
        lines += item_lines(library, it)
    lines += ["#ifdef __cplusplus", "}", "#endif", "", "#endif"]
    return "\n".join(lines) + "\n"
