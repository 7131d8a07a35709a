"""The order that a seed gives the nodes of a suite, by the definitions of docs/FORMATS.md."""

from dataclasses import replace

MASK, MASK_64 = 2**32 - 1, 2**64 - 1
ROUNDS = [(0, 4, 8, 12), (1, 5, 9, 13), (2, 6, 10, 14), (3, 7, 11, 15)]
ROUNDS += [(0, 5, 10, 15), (1, 6, 11, 12), (2, 7, 8, 13), (3, 4, 9, 14)]


def key_of(seed):
    """The eight words of the key that `seed_from_u64` of rand_core makes of a number."""
    key, state = [], seed
    for _ in range(8):
        state = (state * 6364136223846793005 + 11634580027462260723) & MASK_64
        mixed, turn = (((state >> 18) ^ state) >> 27) & MASK, state >> 59
        key.append((mixed >> turn | mixed << (32 - turn)) & MASK)
    return key


def turned(word, by):
    """A word turned to the left."""
    return (word << by | word >> (32 - by)) & MASK


def quarter(state, a, b, c, d):
    """A quarter round of ChaCha."""
    for left, right, into, by in ((a, b, d, 16), (c, d, b, 12), (a, b, d, 8), (c, d, b, 7)):
        state[left] = (state[left] + state[right]) & MASK
        state[into] = turned(state[into] ^ state[left], by)


def block(key, number):
    """The sixteen words of a block of ChaCha20, without a nonce."""
    first = [*(int.from_bytes(b"expand 32-byte k"[at : at + 4], "little") for at in (0, 4, 8, 12)), *key]
    first += [number & MASK, number >> 32, 0, 0]
    state = list(first)
    for _ in range(10):
        for places in ROUNDS:
            quarter(state, *places)
    return [(one + other) & MASK for one, other in zip(first, state)]


def words_of(seed, count):
    """The first words that a seed gives."""
    key = key_of(seed)
    return [word for number in range(count // 16 + 1) for word in block(key, number)]


def copied(node, kept, above=None):
    """A copy of a node and of what is kept below it."""
    made = replace(node, parent=above, children=[])
    made.children = [copied(child, kept, made) for child in node.children if child in kept]
    return made


def ordered(root, seed):
    """A copy of a tree in the order of a seed: each child passes as many of its elder siblings as it draws."""
    made = copied(root, set(root.below()))
    nodes = [made, *made.below()]
    word = dict(zip(nodes, words_of(seed, len(nodes))))
    for node in nodes:
        order = []
        for child in node.children:
            order.insert(len(order) if child.word == "dyn" else word[child] % (len(order) + 1), child)
        node.children = order
    return made
