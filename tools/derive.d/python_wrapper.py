"""Writes the module of Python over a library: a class for each type, by ctypes."""
from kinds import TOO_SOON, answers, snake_upper
from python_views import fields_text, raw_text, read_text

HEAD = '''\
"""The types of `{file}`, by the calls of `lib{name}.so`, whose proofs `rt lib` checks.

Made from `{file}` by `tools/derive --library`: change that, and make this again.

The library lies in the folder `build` beside this file, or where the environment variable {upper}_LIBRARY says.{docs}
"""
import ctypes
import dataclasses
import enum
import os
import pathlib

SOURCE = {source}


class Order(enum.IntEnum):
    """A byte order."""

    LITTLE_ENDIAN = 0
    BIG_ENDIAN = 1


_LITTLE = Order.LITTLE_ENDIAN


class Kind(enum.IntEnum):
    """Why bytes are refused."""

{kinds}


class Refused(ValueError):
    """Bytes that were refused: of which `kind`, and `at` how many bytes were read before that."""

    def __init__(self, answer, at=0):
        self.kind = Kind(answer)
        self.at = at
        super().__init__(f"{{self.kind.name}} after {{at}} bytes")

    @property
    def ends_too_soon(self):
        """Whether the bytes ended too soon, so that more of them may help."""
        return self.kind in ({soon})


def _loaded():
    """The library, which was made of the same file as this module."""
    beside = pathlib.Path(__file__).resolve().parent / "build" / "lib{name}.so"
    library = ctypes.CDLL(os.environ.get("{upper}_LIBRARY", str(beside)))
    library.{name}_source.restype = ctypes.c_uint32
    library.{name}_source.argtypes = ()
    if library.{name}_source() != SOURCE:
        raise ImportError("lib{name}.so was made of another file than {name}.py: make both again")
    return library


_LIBRARY = _loaded()


def _check(name, data, order):
    """How many bytes the encoding has that the bytes begin with."""
    data = bytes(data)
    size = ctypes.c_size_t()
    call = getattr(_LIBRARY, name)
    call.restype = ctypes.c_uint32
    call.argtypes = (ctypes.c_char_p, ctypes.c_size_t, ctypes.c_uint32, ctypes.POINTER(ctypes.c_size_t))
    answer = call(data, len(data), order, ctypes.byref(size))
    if answer:
        raise Refused(answer, size.value)
    return size.value


def _check_whole(name, data, order):
    """Refuses bytes that are not, all of them, an encoding."""
    data = bytes(data)
    call = getattr(_LIBRARY, name)
    call.restype = ctypes.c_uint32
    call.argtypes = (ctypes.c_char_p, ctypes.c_size_t, ctypes.c_uint32)
    answer = call(data, len(data), order)
    if answer:
        raise Refused(answer)
'''

CHECK = '''

{decorated}class {camel}:
    """{title}"""
{fields}
    @staticmethod
    def check(data, order=_LITTLE):
        """How many bytes the encoding has that the bytes begin with, or `Refused` where they begin with none."""
        return _check("{name}_{snake}_check", data, order)
{reading}'''

CHECK_WHOLE = '''

class {camel}:
    """{title}"""

    @staticmethod
    def check_whole(data, order=_LITTLE):
        """Raises `Refused` where the bytes, all of them, are no encoding."""
        _check_whole("{name}_{snake}_check_whole", data, order)
'''


def quoted(text):
    """A text within three quotes."""
    return text.replace("\\", "\\\\").replace('"', '\\"')


def title_of(it):
    """The documentation of a type."""
    lines = [quoted(line) for line in it.docs] or [f"`{'::'.join(it.path)}`"]
    return lines[0] if len(lines) == 1 else "\n    ".join(lines).replace("\n    \n", "\n\n") + "\n    "


def python_text(library):
    """The text of the module."""
    name = library.name
    used = {it.is_whole for it in library.types}
    head = HEAD
    if True not in used:
        head = head[:head.index("\n\ndef _check_whole(")]
    elif False not in used:
        head = head[:head.index("\n\ndef _check(")] + head[head.index("\n\ndef _check_whole("):]
    found = head.rstrip("\n").format(
        file=library.file_name, name=name, upper=name.upper(), source=library.source,
        docs="".join(f"\n{quoted(it)}" for it in ["", *library.docs]) if library.docs else "",
        kinds="\n".join(f"    # {about}\n    {snake_upper(word)} = {number}" for word, number, about in answers()),
        soon=", ".join(f"Kind.{snake_upper(word)}" for word, number, _ in answers() if number in TOO_SOON)) + "\n"
    if library.views.by_path:
        found += raw_text(library)
    else:
        found = found.replace("import dataclasses\n", "")
    for it in library.types:
        view = library.views.by_path.get(it.path)
        found += (CHECK_WHOLE if it.is_whole else CHECK).format(
            camel=it.python, title=title_of(it), name=name, snake=it.snake,
            fields=fields_text(library, view) if view else "",
            decorated="@dataclasses.dataclass(frozen=True)\n" if view and view.cases is None else "",
            reading=read_text(library, view) if view else "")
    return found
