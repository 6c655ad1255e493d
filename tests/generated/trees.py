"""What a pattern's tree says of itself."""

from byte_sets import without


def parts_of(tree):
    """The trees directly inside a tree."""
    return {'repetition': tree[-1:], 'capture': tree[1:], 'concatenation': tree[-1], 'alternation': tree[-1]}.get(tree[0], ())


def value(tree):
    """The default priority."""
    kind = tree[0]
    if kind == 'literal':
        try:
            return 2 * len(tree[1].decode())
        except UnicodeDecodeError:
            return 2 * len(tree[1])
    if kind == 'class':
        return 2
    inside = [value(part) for part in parts_of(tree)]
    if kind == 'repetition':
        return tree[1] * inside[0]
    return min(inside) if kind == 'alternation' else sum(inside)


def size(tree):
    """How large a tree counts."""
    kind = tree[0]
    if kind in ('literal', 'look'):
        return len(tree[1]) if kind == 'literal' else 1
    if kind == 'class':
        return max(4 * len(tree[1]), 1) if tree[2] else 1
    inside = sum(size(part) for part in parts_of(tree))
    return inside * max(1, tree[1] + 1 if tree[2] is None else tree[2]) if kind == 'repetition' else inside


def is_utf8(tree):
    """Whether each literal is text and each class of bytes holds ASCII alone."""
    if tree[0] == 'literal':
        try:
            tree[1].decode()
        except UnicodeDecodeError:
            return False
    if tree[0] == 'class' and not tree[2]:
        return all(high < 128 for _, high in tree[1])
    return all(is_utf8(part) for part in parts_of(tree))


def is_all(ranges, of_characters):
    """Whether a set is that of a dot: nothing is left out but LF, or CR and LF."""
    whole = ((0, 0x10FFFF),) if of_characters else ((0, 255),)
    return ranges in (whole, without(whole, ((10, 10),)), without(whole, ((10, 10), (13, 13))))


def has_greedy_dot(tree):
    if tree[0] == 'repetition':
        return tree[2] is None and tree[3] and tree[4][0] == 'class' and is_all(tree[4][1], tree[4][2])
    return any(has_greedy_dot(part) for part in parts_of(tree))


def is_passable(tree):
    """Whether a tree can be passed without a byte, its looks aside."""
    if tree[0] == 'repetition':
        return tree[1] == 0 or is_passable(tree[4])
    if tree[0] == 'alternation':
        return any(is_passable(part) for part in tree[1])
    return tree[0] in ('empty', 'look') or tree[0] in ('capture', 'concatenation') and all(is_passable(part) for part in parts_of(tree))


def leads(tree):
    """Whether a tree can meet a look before its first byte."""
    if tree[0] != 'concatenation':
        return tree[0] == 'look' or any(leads(part) for part in parts_of(tree))
    for part in tree[1]:
        if leads(part):
            return True
        if not is_passable(part):
            return False
    return False


def has_look(tree):
    return tree[0] == 'look' or any(has_look(part) for part in parts_of(tree))


def has_empty_class(tree):
    return tree[0] == 'class' and not tree[1] or any(has_empty_class(part) for part in parts_of(tree))
