"""Writes the views of a library in C: their structs, and the calls that read them."""
from views import NUMBERS, lists, maybes

FLOATS = {"f32": "float", "f64": "double"}


def c_type(library, kind):
    """A kind in C: what stands before a name, and what stands behind it."""
    name = library.name
    if kind.what == "array":
        return NUMBERS[kind.of], f"[{kind.count}]"
    simple = {"number": NUMBERS.get(kind.of) if kind.what == "number" else "", "flag": "unsigned char",
              "char": "unsigned int", "text": f"struct {name}_bytes", "bytes": f"struct {name}_bytes",
              "list": f"struct {name}_list", "float": FLOATS.get(kind.of, "") if kind.what == "float" else ""}
    own = kind.of.snake if kind.what == "own" else kind.label
    return simple.get(kind.what) or f"struct {name}_{own}", ""


def member(library, name, kind):
    """A member of a struct."""
    before, behind = c_type(library, kind)
    about = {"flag": " /* 0 or 1 */", "char": " /* a character of Unicode */", "text": " /* UTF-8 */",
             "list": f" /* by {next_of(library, kind)} */" if kind.what == "list" else ""}
    return f"    {before} {name}{behind};{about.get(kind.what, '')}"


def next_of(library, kind):
    """The call that takes an item of a list."""
    return f"{library.name}_{kind.of.label}_next"


def constants(library):
    """The names of tags and their numbers, by the types."""
    return {view.snake: [(f"{library.name}_{view.snake}_{case.snake}".upper(), case) for case in view.cases]
            for view in library.views if view.cases is not None}


def struct_lines(library):
    """The structs of all views."""
    from c_header import comment
    name, found = library.name, []
    found += comment(["Bytes that lie in those that were read, so many of them: they stay while those stay. None is "
                      "behind a text."])
    found += [f"struct {name}_bytes {{", "    const unsigned char *at;", f"    {name}_size length;", "};", ""]
    found += comment(["A walk over values that stand one after another: the bytes that are left. It begins as all of "
                      "them."])
    found += [f"struct {name}_walk {{", f"    struct {name}_bytes left;", "};", ""]
    found += list_lines(library) if lists(library.views) else []
    options = {kind.label: kind for kind in maybes(library.views)}
    done = set()

    def option(kind):
        """The struct of an option, behind those that it holds."""
        if kind.what != "maybe" or kind.label in done:
            return []
        done.add(kind.label)
        return [*option(kind.of), f"struct {name}_{kind.label} {{", "    unsigned char is_some; /* 0 or 1 */",
                member(library, "value", kind.of), "};", ""]

    for view in library.views:
        for kind in view.kinds:
            found += option(options.get(kind.label, kind))
        path = "::".join(view.exported.path)
        if view.cases is None:
            found += [*comment([f"What a `{path}` shows."]), f"struct {name}_{view.snake} {{",
                      *(member(library, it.name, it.kind) for it in view.fields), "};", ""]
            continue
        found += [*comment([f"The tags of `{path}`."]), f"enum {name}_{view.snake}_tag {{"]
        rows = constants(library)[view.snake]
        found += [f"    {word} = {case.tag}{',' * (at < len(rows) - 1)}" for at, (word, case) in enumerate(rows)]
        found += ["};", ""]
        for case in view.cases:
            if case.fields:
                found += [f"struct {name}_{view.snake}_{case.snake} {{",
                          *(member(library, it.name, it.kind) for it in case.fields), "};", ""]
        about = f"What a `{path}` shows: the tag, and the struct of its variant. The others show nothing."
        found += [*comment([about]), f"struct {name}_{view.snake} {{", "    unsigned int tag;",
                  *(f"    struct {name}_{view.snake}_{case.snake} {case.snake};" for case in view.cases if case.fields),
                  "};", ""]
    return found


def list_lines(library):
    """The struct of lists."""
    from c_header import comment, filled
    name = library.name
    about = "A list that lies in the bytes that were read: its items, how many they are, and their byte order. The " \
            "call that takes an item from a copy of the walk `items`, in that order, is named where the list " \
            "stands: `count` times it answers 0, and then nothing is left. In a list that is written `items` are " \
            "so many encodings in the order `order`, whatever order is written."
    return [*comment(filled(about)), f"struct {name}_list {{", f"    struct {name}_walk items;",
            f"    {name}_size count;", f"    unsigned int order; /* {name.upper()}_LITTLE_ENDIAN or "
            f"{name.upper()}_BIG_ENDIAN */", "};", ""]


def item_lines(library, kind):
    """The call that takes an item of a list, which is of no type of the file."""
    from c_header import comment, filled
    named = {"number": kind.of, "float": kind.of, "flag": "flag, 0 or 1", "char": "character", "text": "text, in UTF-8",
             "bytes": "item that is bytes"}[kind.what]
    about = f"Takes {'an' if kind.what == 'bytes' else 'a'} {named} from the items of a list. Where the answer is " \
            "not 0, the walk and `item` stay as they are."
    return [*comment(filled(about)), f"unsigned int {library.name}_{kind.label}_next(",
            f"    struct {library.name}_walk *walk, unsigned int order, {c_type(library, kind)[0]} *item);", ""]


def read_lines(library, view):
    """The calls that read a type."""
    from c_header import comment, filled
    name, path = library.name, "::".join(view.exported.path)
    read = f"Reads the `{path}` that the bytes begin with. The answer and `size` are those of its check. Where the " \
           "answer is 0, `view` shows the value, and else it stays as it is."
    walk = f"Takes a `{path}` from a walk, while bytes are left. Where the answer is not 0, the walk and `view` stay " \
           "as they are."
    return [*comment(filled(read)), f"unsigned int {name}_{view.snake}_read(",
            f"    const unsigned char *bytes, {name}_size length, unsigned int order,",
            f"    struct {name}_{view.snake} *view, {name}_size *size);", "",
            *comment(filled(walk)), f"unsigned int {name}_{view.snake}_next(",
            f"    struct {name}_walk *walk, unsigned int order, struct {name}_{view.snake} *view);", "",
            *(write_lines(library, view) if view.item.writable else ())]


def write_lines(library, view):
    """The call that writes a type."""
    from c_header import comment, filled
    name, path = library.name, "::".join(view.exported.path)
    short = f"{name.upper()}_OUTPUT_BUFFER_IS_TOO_SMALL"
    write = f"Writes the `{path}` that `view` shows to the front of `buffer`, which has `room` bytes. The answer is " \
            f"0 where that fits, and `size` is then how many bytes it takes. It is {short} where `room` is less, and " \
            "`size` is then how much is needed. Else the view shows no value, or one without an encoding, and " \
            "`size` is 0. Where the answer is not 0, the buffer stays as it is."
    return [*comment(filled(write)), f"unsigned int {name}_{view.snake}_write(",
            f"    const struct {name}_{view.snake} *view, unsigned int order, unsigned char *buffer,",
            f"    {name}_size room, {name}_size *size);", ""]
