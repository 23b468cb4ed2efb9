"""Gives the functions of a module that `rt try` made back the `#[inline]` of their source, which that leaves out."""
import os
import re

from rattle_source import without_parameters
from unproved import text_of

WORDS = {"always": "alwaysinline", "never": "noinline", None: "inlinehint"}
GROUPS = {"": "0", "alwaysinline": "901", "inlinehint": "902", "noinline": "903"}


def parts(text):
    """Returns the parts of a list with commas, as of a type's arguments."""
    out, depth = [""], 0
    for it in text:
        depth += (it in "<([") - (it in ">)]")
        if it == "," and not depth:
            out.append("")
        else:
            out[-1] += it
    return [it.strip() for it in out if it.strip()]


def word_of(kind, parameters, nested=False):
    """Returns the word for a type or a trait in the name of a function: `VecU8` for `Vec<u8>`, `Vec` for `Vec<T>`."""

    def words_of(inside):
        return "".join(word_of(it, parameters, True) for it in inside)

    kind = re.sub(r"^(?:'\w+|dyn|mut) ", "", kind.strip())
    if kind.startswith("&"):
        kind = re.sub(r"^&('\w+ )?", "", kind)
        return ("RefMut" if kind.startswith("mut ") else "Ref") + words_of([kind])
    if kind.startswith("("):
        inside = parts(kind[1:-1])
        return (f"Tuple{len(inside)}" if inside else "Unit") + words_of(inside)
    if kind.startswith("["):
        return ("Array" if ";" in kind else "Slice") + words_of(kind[1:-1].split(";"))
    name, _, inside = kind.partition("<")
    name = name.strip().split("::")[-1]
    if name in parameters or name.startswith("'"):
        return "" if nested else "Any"
    return name[:1].upper() + name[1:] + words_of(parts(inside[:-1]))


def holder_of(head):
    """Returns the word before the name of a function of `impl<..> A for B`, without `impl` and what follows `where`."""
    inside, head = without_parameters(head)
    parameters = [re.sub(r"^const ", "", it).split(":")[0].strip() for it in parts(inside.replace("->", ""))]
    of, found, kind = head.strip().partition(" for ")
    if found:
        return word_of(kind, parameters) + word_of(of, parameters)
    if of.startswith("["):
        return "+".join(["array" if ";" in of else "slice", *reversed(re.findall(r"\w+", of))])
    # A method of the type itself is named by the type, with its arguments where one is no parameter.
    name, *inside = re.findall(r"'?\w+", of)
    return "+".join([name, *inside]) if {*inside} - {*parameters} else name


def sources_of(library, folder):
    """Yields the path of each module of a library, and its text."""
    for at, _, files in os.walk(f"{folder}/src"):
        for file in (it for it in files if it.endswith(".rt")):
            place = os.path.relpath(f"{at}/{file}", f"{folder}/src")[:-3].split("/")
            module = "::".join([library, *[it for it in place if it not in ("lib", "main", "mod")]])
            yield module, text_of(f"{at}/{file}")


def functions_of(module, text):
    """Yields what each function of a module stands in, a type, a trait or the module, its name and its attribute."""
    plain = r"(?m)^(\s*)(?:pub(?:\([^)]*\))? |unsafe |const |final |extern \"C\" )+(?=trait|impl|fn|mod)"
    text = re.sub(plain, r"\1", text)
    text = re.sub(r"(?m)^impl\b[^{]*\{", lambda it: " ".join(it[0].split()), text)
    holder, word = module, ""
    for line in text.splitlines():
        if line[:1] == "}" or line[:1] not in ("", " ") and line.endswith("{}"):
            holder = module
        elif it := re.match(r"trait (\w+)", line):
            holder = it[1]
        elif line.startswith("impl"):
            holder = holder_of(re.split(r" where |\{", line[4:])[0].strip())
        elif it := re.match(r"\s*#\[inline(?:\((\w+)\))?\]", line):
            word = WORDS[it[1]]
        elif it := re.match(r"\s*fn (\w+)", line):
            yield holder, it[1], word
            word = ""


def inlined(known):
    """Returns each function's attribute, by library, type or module, and name: None where two of one key differ."""
    found = {}
    for library, _, folder in known:
        for module, text in sources_of(library, folder):
            for holder, name, word in functions_of(module, text):
                found[module, holder, name] = found[library, holder, ""] = word
                if holder == "char":
                    found[module, module, name] = word
                key = (library, holder, name)
                found[key] = word if found.get(key, word) == word else None
    return found


def with_inline(text, known, words_of_all):
    """Returns the module with its functions' attributes, and the functions that are not found in the sources: closures,
    what drops values, and what a derive or a macro wrote. `known` are the libraries and the crate itself, and each
    function has the words of all."""
    lines = [f"attributes #{at} = {{ {word} {words_of_all} }}" for word, at in GROUPS.items()]
    text = re.sub(r"(?m)^attributes #0 = .*", "\n".join(lines), text)
    words, missed = inlined(known), set()

    def with_word(it):
        path = re.sub(r"::<.*", "", it[2]).split("::")
        # A method is named after its type, and may stand in a module below.
        below = "::".join(path[:-1])
        keys = (("::".join(path[:-2]), path[-2], path[-1]), (below, below, path[-1]), (path[0], path[-2], path[-1]))
        key = next((it for it in keys if it in words), None)
        if words.get(key, "") is None or (path[0], path[-2], "") not in words and not key:
            missed.add(it[2])
        return f"{it[1]}#{GROUPS[words.get(key) or '']} {{"

    return re.sub(r'(?m)^(define [^\n]*@"([^"\n]*)"\([^\n]*\) )#0 \{', with_word, text), sorted(missed)
