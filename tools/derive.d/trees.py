"""Trees of pairs, whose halves are about equal, and groups."""


def halved(items):
    """A tree of pairs, as deep as it has to be."""
    if len(items) == 1:
        return items[0]
    half = len(items) // 2
    return (halved(items[:half]), halved(items[half:]))


def leaves(tree):
    """Its leaves in order, each with its place: `0` for left and `1` for right."""
    if not isinstance(tree, tuple):
        return [("", tree)]
    return [(side + path, leaf) for side, half in zip("01", tree) for path, leaf in leaves(half)]


def grouped(items, most):
    """Items in groups of at most so many, which are about equal."""
    count = -(-len(items) // most)
    return [items[len(items) * place // count:len(items) * (place + 1) // count] for place in range(count)]


def chained(trees):
    """A tree of trees, each beside all that come after it."""
    return trees[0] if len(trees) == 1 else (trees[0], chained(trees[1:]))
