"""The proofs of types with `depth`, which the source determines: a search does not find them."""

LAYERS = "Rattle.speedy.specs.Layers"
RULES = "use Rattle.std.proofs.Common.{rules}"
# That the level is the last, or that there is one below.
LEVELS = "(search (rules, level_lemmas))"


def answers(shape):
    """The proofs of a struct, which a search does not find: the path of each file below the crate's folder, and its
    text."""
    return files(shape, read_answers, least_answer, write_answers)


def files(shape, read, least, write):
    """The files of the proofs of reading, of the least size and of writing: what is imported, and the answers."""
    crate, *modules = shape.place
    levels, level, name = "speedy::levels", shape.level, shape.item.name
    found, wanted = {}, []
    if shape.item.readable:
        wanted += [(shape.impl_name(levels, "ReadLevel", name, of=level), "+read_level", read),
                   (shape.impl_name("speedy", "ReadFrom"), "minimum_bytes_needed", least)]
    if shape.item.writable:
        wanted.append((shape.impl_name(levels, "WriteLevel", name, of=level), "+write_level", write))
    for trait, function_, proofs in wanted:
        path = [*modules, trait, function_]
        goals = f"use Rattle.{'.'.join([crate, 'proofs', *path])}.Goals as goal"
        uses, lines = proofs(shape)
        found["/".join(["proofs", *path, "Answers.antt"])] = "\n".join([*uses, goals, *lines]) + "\n"
    return found


def lemmas_of(shape, name, alias=""):
    """The import of what the kit says of a type of the module."""
    crate, *modules = shape.place
    path = ".".join([crate, "specs.declared", *modules, name])
    return f"use Rattle.{path}.{{the_lemmas{alias}}}"


def answer(goal, fact, term, unfolded=()):
    """One of them: a goal, what the search for the levels needs to see, and the proof."""
    lines = ["", f"pub {goal} : goal.{goal}"]
    lines += [f"unfolding {' '.join(unfolded)}"] if unfolded else []
    return [*lines, f"{goal} g t c =", f"    let level = {fact} in", f"    {term}"]


def read_answers(shape):
    """Those of reading: what is imported, and the answers."""
    uses = [RULES, "use Rattle.speedy.specs.ReadLayers.{none_read, value_read, value_refused}",
            lemmas_of(shape, shape.item.name), lemmas_of(shape, shape.level, " as level_lemmas")]
    return uses, [
        *answer("returns-in_default", "c.in_default.is", f"none_read _ _ {LEVELS} c.error_out_of_range_length.ensures"),
        *answer("returns-in-Ok", "c.in-Some.is",
                f"value_read _ _ _ c.in-Ok.ensures {LEVELS} (search (rules, the_lemmas))"),
        *answer("returns-in-Err", "c.in-Some.is", f"value_refused _ _ _ c.in-Err.ensures {LEVELS}")]


def least_answer(shape):
    """That of the least size."""
    used = sorted({"at_level"} | shape.holding.used - {"its_layer"})
    return [RULES, f"use {LAYERS}.{{{', '.join(used)}}}"], [
        "", "pub returns : goal.returns", f"unfolding {' '.join(used)}", "returns g c = search rules"]


def write_answers(shape):
    """Those of writing."""
    used = sorted(shape.holding.used)
    uses = [RULES, f"use {LAYERS}.{{{', '.join(used)}}}",
            "use Rattle.speedy.specs.WriteLayers.{none_written, value_written}",
            lemmas_of(shape, shape.level, " as level_lemmas")]
    return uses, [
        *answer("returns-in_default", "c.in_default.is",
                f"none_written _ _ {LEVELS} c.error_out_of_range_length.ensures (g.met.W.Writer.nothing _)"),
        *answer("returns", "c.in-Some.is", f"value_written _ _ c.write_below.ensures {LEVELS}", used)]
