"""Makes inputs for a lexer: texts that its leaves match, whole or cut short, and others between
them."""

from trees import parts_of

OTHER = [b'a', b' ', b'\n', b'zz', 'é'.encode(), 'ß'.encode(), b'\r\n', b'0', b'\xff', b'K', '\u212a'.encode()]


def sample(tree, random):
    """Some bytes that a tree matches, its looks aside."""
    kind = tree[0]
    if kind == 'literal':
        return tree[1]
    if kind == 'class':
        if not tree[1]:
            return b''
        low, high = random.choice(tree[1])
        code = random.choice([low, high, random.randint(low, min(high, low + 40))])
        return chr(code if not 0xD800 <= code < 0xE000 else 0xE000).encode() if tree[2] else bytes([code])
    if kind == 'repetition':
        return b''.join(sample(tree[4], random) for _ in range(random.randint(tree[1], min(tree[1] + 3, tree[2] or tree[1] + 3))))
    if kind == 'alternation':
        return sample(random.choice(tree[1]), random)
    return b''.join(sample(part, random) for part in parts_of(tree))


def make_input(leaves, random, is_utf8):
    out = b''
    for _ in range(random.randint(0, 6)):
        if leaves and random.random() < 0.8:
            piece = sample(random.choice(leaves).tree, random)
            out += piece[:random.randint(0, len(piece))] if random.random() < 0.25 else piece
        else:
            out += random.choice(OTHER)
    return out.decode('utf8', 'ignore').encode() if is_utf8 and random.random() < 0.9 else out
