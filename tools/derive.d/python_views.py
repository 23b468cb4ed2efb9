"""Writes the views of a library in Python: structs of ctypes, classes of values, and the calls that read and write
them."""
import textwrap

from names import camel
from views import lists, maybes

HEAD = '''

class _Bytes(ctypes.Structure):
    _fields_ = [("at", ctypes.c_void_p), ("length", ctypes.c_size_t)]

    def get(self):
        """A copy of the bytes."""
        return ctypes.string_at(self.at, self.length) if self.length else b""

    @staticmethod
    def of(data, kept):
        """Where the bytes lie, for as long as `kept` is there."""
        data = bytes(memoryview(data))
        kept.append(data)
        return _Bytes(ctypes.cast(data, ctypes.c_void_p).value, len(data))


def _number(value, kind):
    """A number that is one of its kind of ctypes."""
    if kind(value).value != value:
        raise ValueError(f"{value} is out of range")
    return value


def _array(value, kind):
    """An array of numbers, as many as its kind of ctypes has."""
    if len(value) != kind._length_:
        raise ValueError(f"{len(value)} items, where {kind._length_} are wanted")
    return kind(*(_number(it, kind._type_) for it in value))


def _maybe(raw, value, of):
    """An option, whose value is given by a function."""
    return raw() if value is None else raw(1, of(value))


def _read(name, raw, data, order, at):
    """What a view shows of the value at a place of the bytes, where they lie, and how many bytes it has."""
    size, view = ctypes.c_size_t(), raw()
    call = getattr(_LIBRARY, name)
    call.restype = ctypes.c_uint32
    call.argtypes = (ctypes.c_void_p, ctypes.c_size_t, ctypes.c_uint32, ctypes.POINTER(raw),
                     ctypes.POINTER(ctypes.c_size_t))
    start = ctypes.cast(data, ctypes.c_void_p).value + at
    answer = call(start, len(data) - at, order, ctypes.byref(view), ctypes.byref(size))
    if answer:
        raise Refused(answer, size.value)
    return view, size.value


def _walk(read, data, order):
    """The values that stand one after another. Where one is refused, `at` is where it begins."""
    at = 0
    while at < len(data):
        try:
            value, size = read(data, order, at)
        except Refused as refused:
            raise Refused(refused.kind, at) from None
        if size == 0:
            return
        at += size
        yield value
'''
LISTS = '''

class _List(ctypes.Structure):
    _fields_ = [("items", _Bytes), ("count", ctypes.c_size_t), ("order", ctypes.c_uint32)]
'''
VALUES = '''
    def get(self, name, raw, of=lambda it: it.value_of()):
        """The items, by the call that takes one, and a function of what that shows."""
        left, view = _Bytes(self.items.at, self.items.length), raw()
        call = getattr(_LIBRARY, name)
        call.restype = ctypes.c_uint32
        call.argtypes = (ctypes.POINTER(_Bytes), ctypes.c_uint32, ctypes.POINTER(raw))
        found = []
        for _ in range(self.count):
            answer = call(ctypes.byref(left), self.order, ctypes.byref(view))
            if answer:
                raise Refused(answer)
            found.append(of(view))
        return found
'''
WRITTEN_VALUES = '''
    @staticmethod
    def of(values, name, raw, kept):
        """Where the items lie, which a call writes, for as long as `kept` is there."""
        items = [_written(name, raw.of(it, kept), _LITTLE) for it in values]
        return _List(_Bytes.of(b"".join(items), kept), len(items), _LITTLE)
'''
NUMBERS = '''
    def numbers(self, kind):
        """The items, which are numbers of a kind of ctypes."""
        kind = kind.__ctype_be__ if self.order else kind.__ctype_le__
        return list((kind * self.count).from_buffer_copy(self.items.get()))
'''
WRITTEN_NUMBERS = '''
    @staticmethod
    def of_numbers(values, kind, kept):
        """Where numbers of a kind of ctypes lie, for as long as `kept` is there."""
        items = (kind.__ctype_le__ * len(values))(*values)
        return _List(_Bytes.of(items, kept), len(items), _LITTLE)
'''
WRITTEN_BYTES = '''
    @staticmethod
    def of_bytes(values, kept):
        """Where texts or bytes lie, each behind its length, for as long as `kept` is there."""
        items = [len(it).to_bytes(4, "little") + it for it in values]
        return _List(_Bytes.of(b"".join(items), kept), len(items), _LITTLE)
'''
WRITTEN = '''

def _written(name, raw, order):
    """The bytes that a call writes of a view."""
    size, room = ctypes.c_size_t(), 64
    call = getattr(_LIBRARY, name)
    call.restype = ctypes.c_uint32
    call.argtypes = (ctypes.POINTER(type(raw)), ctypes.c_uint32, ctypes.c_void_p, ctypes.c_size_t,
                     ctypes.POINTER(ctypes.c_size_t))
    while True:
        buffer = ctypes.create_string_buffer(room)
        answer = call(ctypes.byref(raw), order, buffer, room, ctypes.byref(size))
        if answer == 0:
            return buffer.raw[:size.value]
        if answer != Kind.OUTPUT_BUFFER_IS_TOO_SMALL:
            raise Refused(answer)
        room = size.value
'''

READ = '''
    @staticmethod
    def read(data, order=_LITTLE):
        """The value that the bytes begin with, and how many bytes it has. Where there is none, `Refused` is raised."""
        return {camel}._read(bytes(data), order, 0)

    @staticmethod
    def _read(data, order, at):
        view, size = _read("{library}_{snake}_read", _Raw{raw}, data, order, at)
        return view.value_of(), size

    @staticmethod
    def walk(data, order=_LITTLE):
        """The values that stand one after another, up to the end of the bytes."""
        return _walk({camel}._read, bytes(data), order)
'''

WRITE = '''
    def to_bytes(self, order=_LITTLE):
        """The canonical encoding of the value. Where it has none, `Refused` is raised."""
        kept = []
        return _written("{library}_{snake}_write", _Raw{raw}.of(self, kept), order)
'''

# The kinds of items that a call takes from a list. Others are numbers there.
WALKED = ("own", "text", "bytes")
CTYPES = {"u8": "c_uint8", "u16": "c_uint16", "u32": "c_uint32", "u64": "c_uint64", "i8": "c_int8", "i16": "c_int16",
          "i32": "c_int32", "i64": "c_int64", "f32": "c_float", "f64": "c_double"}


def raw(kind):
    """The type of ctypes of a kind."""
    if kind.what in ("number", "float"):
        return f"ctypes.{CTYPES[kind.of]}"
    if kind.what == "array":
        return f"ctypes.{CTYPES[kind.of]} * {kind.count}"
    simple = {"flag": "ctypes.c_uint8", "char": "ctypes.c_uint32", "text": "_Bytes", "bytes": "_Bytes", "list": "_List"}
    return simple.get(kind.what) or f"_Raw{kind.of.camel if kind.what == 'own' else camel(kind.label)}"


def taken(library, kind, place):
    """The expression of a value of what a struct has at a place."""
    if kind.what == "array":
        return f"bytes({place})" if kind.of == "u8" else f"tuple({place})"
    if kind.what == "list" and kind.of.what in WALKED:
        of = f", lambda it: {taken(library, kind.of, 'it')}" if kind.of.what != "own" else ""
        return f'{place}.get("{library.name}_{kind.of.label}_next", {raw(kind.of)}{of})'
    if kind.what == "list":
        numbers, item = f"{place}.numbers({raw(kind.of)})", taken(library, kind.of, "it")
        return numbers if item == "it" else f"[{item} for it in {numbers}]"
    if kind.what == "own":
        return f"{place}.value_of()"
    if kind.what == "maybe":
        return f"({taken(library, kind.of, place + '.value')} if {place}.is_some else None)"
    return {"flag": f"bool({place})", "char": f"chr({place})", "text": f"{place}.get().decode()",
            "bytes": f"{place}.get()"}.get(kind.what, place)


def given(library, kind, place):
    """The expression of what a struct has of a value."""
    if kind.what in ("text", "bytes"):
        return f"_Bytes.of({place}{'.encode()' * (kind.what == 'text')}, kept)"
    if kind.what == "list":
        if kind.of.what == "own":
            return f'_List.of({place}, "{library.name}_{kind.of.label}_write", {raw(kind.of)}, kept)'
        if kind.of.what in WALKED:
            item = "it.encode()" if kind.of.what == "text" else "bytes(memoryview(it))"
            return f"_List.of_bytes([{item} for it in {place}], kept)"
        items = f"[{given(library, kind.of, 'it')} for it in {place}]"
        return f"_List.of_numbers({items}, {raw(kind.of)}, kept)"
    if kind.what == "own":
        return f"{raw(kind)}.of({place}, kept)"
    if kind.what == "maybe":
        return f"_maybe({raw(kind)}, {place}, lambda it: {given(library, kind.of, 'it')})"
    if kind.what in ("number", "array"):
        return f"_{kind.what}({place}, {raw(kind)})"
    return {"flag": f"int(bool({place}))", "char": f"ord({place})"}.get(kind.what, place)


def structure(name, fields):
    """A struct of ctypes."""
    inner = "".join(f'        ("{field}", {kind}),\n' for field, kind in fields)
    return f"\n\nclass {name}(ctypes.Structure):\n    _fields_ = [\n{inner}    ]\n"


def values_of(library, view):
    """The function of a struct that makes a value."""
    if view.cases is None:
        inner = "".join(f"            {it.python}={taken(library, it.kind, f'self.{it.in_struct}')},\n"
                        for it in view.fields)
        return f"\n    def value_of(self):\n        return {view.exported.python}(\n{inner}        )\n"
    found = "\n    def value_of(self):\n"
    for case in view.cases:
        inner = "".join(f"                {it.in_case}="
                        f"{taken(library, it.kind, f'self.{case.in_struct}.{it.in_struct}')},\n" for it in case.fields)
        inner = f"(\n{inner}            )" if inner else "()"
        found += f"        if self.tag == {case.tag}:\n            return {view.exported.python}.{case.name}{inner}\n"
    return found + '        raise ValueError("the library shows a tag that this module does not know")\n'


def given_of(library, view):
    """The function of a struct that shows a value."""
    found = '\n    @staticmethod\n    def of(value, kept):\n        """The view of a value, for as long as `kept` is ' \
            'there."""\n        raw = _Raw' + f"{view.camel}()\n"
    if view.cases is None:
        found += "".join(f"        raw.{it.in_struct} = {given(library, it.kind, f'value.{it.python}')}\n"
                         for it in view.fields)
        return found + "        return raw\n"
    for at, case in enumerate(view.cases):
        found += f"        {'el' if at else ''}if isinstance(value, {view.exported.python}.{case.name}):\n" \
                 f"            raw.tag = {case.tag}\n"
        found += "".join(f"            raw.{case.in_struct}.{it.in_struct} = "
                         f"{given(library, it.kind, f'value.{it.in_case}')}\n" for it in case.fields)
    return found + f"        else:\n            raise TypeError(f\"{{value!r}} is no `{view.exported.python}`\")\n" \
                   "        return raw\n"


def raw_text(library):
    """The structs of ctypes."""
    written = [it for it in library.views if it.item.writable]
    done, found = set(), HEAD + lists_text(library, written) + WRITTEN * bool(written)

    def option(kind):
        if kind.what == "maybe" and kind.label not in done:
            done.add(kind.label)
            return option(kind.of) + structure(raw(kind), [("is_some", "ctypes.c_uint8"), ("value", raw(kind.of))])
        return ""

    for view in library.views:
        found += "".join(option(kind) for kind in maybes([view]))
        if view.cases is None:
            found += structure(f"_Raw{view.camel}", [(it.in_struct, raw(it.kind)) for it in view.fields])
        else:
            for case in view.cases:
                if case.fields:
                    fields = [(it.in_struct, raw(it.kind)) for it in case.fields]
                    found += structure(f"_Raw{view.camel}{case.name}", fields)
            found += structure(f"_Raw{view.camel}", [("tag", "ctypes.c_uint32"), *(
                (case.in_struct, f"_Raw{view.camel}{case.name}") for case in view.cases if case.fields)])
        found += values_of(library, view)
        found += given_of(library, view) if view.item.writable else ""
    return found


def lists_text(library, written):
    """The struct of lists. `written` are the views that are written."""
    if not lists(library.views):
        return ""
    of, of_written = ({it.of.what for it in lists(some)} for some in (library.views, written))
    walked = set(WALKED)
    return LISTS + VALUES * bool(of & walked) + WRITTEN_VALUES * ("own" in of_written) \
        + WRITTEN_BYTES * bool(of_written & walked - {"own"}) + NUMBERS * bool(of - walked) \
        + WRITTEN_NUMBERS * bool(of_written - walked)


def fields_text(library, view):
    """What stands in the class of a type before its calls: its fields, or a class of each variant."""
    if view.cases is None:
        return "".join(f"\n    {it.python}: object" for it in view.fields) + "\n"
    found = ""
    for case in view.cases:
        inner = "".join(f"\n        {it.in_case}: object" for it in case.fields)
        if view.item.writable:
            inner += "\n" * bool(inner) + textwrap.indent(write_text(library, view), "    ").rstrip("\n")
        inner = inner or "\n        pass"
        found += f"\n    @dataclasses.dataclass(frozen=True)\n    class {case.name}:{inner}\n"
    return found


def write_text(library, view):
    """The function of a class that writes it."""
    return WRITE.format(library=library.name, snake=view.snake, raw=view.camel)


def read_text(library, view):
    """The functions of a class that read it."""
    found = READ.format(library=library.name, snake=view.snake, camel=view.exported.python, raw=view.camel)
    if view.item.writable and view.cases is None:
        found += write_text(library, view)
    return found
