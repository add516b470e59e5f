"""Random load files, as load_files.py has them: their hunks, any of the forms that have these hunks, and changes of them."""
from load_files import FAR, LoadHunk, halves, header
from model import BSS, CODE, DATA, DEBUG, END, HEADER, KINDS, MEMORIES, MODULUS, NAME, RELOC32, RELOC32SHORT, SYMBOL
from model import bases_apart, random_name, text, words


def random_content(dice, size):
    """Bytes for a hunk of this size, of which some are zeros, also at their end and at their beginning."""
    stored = dice.randrange(size + 1) if dice.random() < 0.5 else size
    content = bytearray(dice.randbytes(4 * stored))
    for _ in range(dice.randrange(3)):
        start = dice.randrange(len(content) + 1)
        end = len(content) if dice.random() < 0.5 else dice.randrange(start, len(content) + 1)
        content[start:end] = bytes(end - start)
    return bytes(content)


def random_sites(dice, size, hunks):
    sites, offset = {}, dice.randrange(4)
    while offset + 4 <= 4 * size and len(sites) < 40:
        if dice.random() < 0.5:
            sites[offset] = dice.randrange(hunks)
        offset += 4 + dice.choice([0, 0, 1, 3, 6, size])
    # And at the end of the hunk, which may be far from its beginning.
    if size and dice.random() < 0.5 and max(sites, default=-4) + 4 <= 4 * size - 4:
        sites[4 * size - 4] = dice.randrange(hunks)
    return sites


def random_symbols(dice):
    return [(random_name(dice), dice.randrange(MODULUS)) for _ in range(dice.choice([0, 0, 0, 1, 2, 3]))]


def random_debugs(dice):
    return [[dice.randrange(MODULUS) for _ in range(dice.randrange(4))] for _ in range(dice.choice([0, 0, 0, 1, 2]))]


def random_hunks(dice):
    """The hunks of a load file. One in forty is so large that 16 bits do not hold each of its offsets."""
    hunks, count = [], dice.randrange(1, 5)
    for _ in range(count):
        size = dice.choice([0, 1, 2, 3, 5, 8, 40]) if dice.randrange(40) else 16500
        kind = dice.choice((CODE, DATA, BSS))
        content = b"" if kind == BSS else random_content(dice, size)
        sites = random_sites(dice, size, count)
        hunks.append(LoadHunk(kind, size, content, dice.choice(MEMORIES), sites, random_symbols(dice), random_debugs(dice)))
    return hunks


def random_bases(dice, *files):
    """Addresses at which the hunks of each of some files with equally many are apart, in any order, and somewhere in 32 bits."""
    sizes = [max(4 * hunk.size for hunk in hunks) for hunks in zip(*files)]
    return bases_apart(dice, sizes, dice.choice([0, 3, dice.randrange(1 << 31), 0xFFF00000]), [0, 1, 100, 70000])


# ---- other files that mean the same


def any_bits(dice, number):
    """The number with any two bits above its lower 30."""
    return dice.randrange(4) << 30 | number


def shares(dice, list_, most=3):
    """The list in a few parts, of which some may be empty."""
    ends = sorted(dice.randrange(len(list_) + 1) for _ in range(dice.randrange(most)))
    return [list_[start:end] for start, end in zip([0, *ends], [*ends, len(list_)])]


def random_groups(dice, sites):
    """The numbers of a list of sites, in any order: a target may have several groups."""
    numbers = []
    while sites:
        _, target = sites[0]
        of_target = [it for it in sites if it[1] == target]
        taken = of_target[: dice.randrange(1, len(of_target) + 1)]
        numbers += [len(taken), target, *(offset for offset, _ in taken)]
        sites = [it for it in sites if it not in taken]
    return numbers + [0]


def random_lists(dice, sites):
    """Blocks with these sites, each of 32-bit or of 16-bit numbers."""
    sites = list(sites.items())
    dice.shuffle(sites)
    blocks = []
    for share in shares(dice, sites) if sites or dice.random() < 0.1 else []:
        near = [it for it in share if it[0] < FAR and dice.random() < 0.7]
        far = [it for it in share if it not in near]
        if near or dice.random() < 0.1:
            numbers = random_groups(dice, near)
            pad = [dice.randrange(FAR)] * (len(numbers) % 2)
            blocks.append(words(any_bits(dice, RELOC32SHORT)) + halves(numbers + pad))
        if far or dice.random() < 0.1:
            blocks.append(words(any_bits(dice, RELOC32), *random_groups(dice, far)))
    return blocks


def loose_name(dice, name):
    """A name as it may be stored: in more longwords than it needs, and with anything after its first zero byte."""
    stored = text(name) + bytes(4 * dice.randrange(3))
    end = len(stored) - len(name) - 1
    return stored if end < 0 else name + b"\0" + dice.randbytes(end)


def loose_title(dice, type_, name):
    """A block that has a name alone."""
    stored = loose_name(dice, name)
    return words(any_bits(dice, type_), len(stored) // 4) + stored


def loose_symbol(dice, name, value):
    stored = loose_name(dice, name)
    if not stored:
        stored = b"\0" + dice.randbytes(3)
    return words(len(stored) // 4) + stored + words(value)


def symbol_blocks(dice, symbols):
    parts = shares(dice, symbols) if symbols or dice.random() < 0.1 else []
    return [words(any_bits(dice, SYMBOL)) + b"".join(loose_symbol(dice, *it) for it in part) + words(0) for part in parts]


def merged(dice, *lists):
    """The lists as one, in which each keeps its own order."""
    turns = [number for number, list_ in enumerate(lists) for _ in list_]
    dice.shuffle(turns)
    rests = [iter(list_) for list_ in lists]
    return [next(rests[number]) for number in turns]


def spelt_hunk(dice, hunk):
    stored = b""
    if hunk.kind == BSS:
        longwords = dice.choice([0, hunk.size, dice.randrange(hunk.size + 1)])
    else:
        least = len(hunk.bytes().rstrip(b"\0")) + 3
        longwords = dice.randrange(least // 4, hunk.size + 1)
        stored = hunk.bytes()[: 4 * longwords]
    parts = []
    if dice.random() < 0.3:
        parts.append(loose_title(dice, NAME, random_name(dice)))
    parts.append(words(any_bits(dice, hunk.kind), any_bits(dice, longwords)) + stored)
    debugs = [words(any_bits(dice, DEBUG), len(debug), *debug) for debug in hunk.debugs]
    parts += merged(dice, random_lists(dice, hunk.sites), symbol_blocks(dice, hunk.symbols), debugs)
    return b"".join(parts) + words(any_bits(dice, END))


def spelt(dice, hunks):
    """A load file that has these hunks, in any of the forms that are read. What is stored of a hunk may differ from its content, by
    zeros at the end."""
    start = words(any_bits(dice, HEADER)) + header(hunks)[4:]
    return start + b"".join(spelt_hunk(dice, hunk) for hunk in hunks)


# ---- load files that differ in a place


def other(dice, list_, it):
    return dice.choice([another for another in list_ if another != it])


def change_kind(dice, hunks, hunk):
    hunk.kind = other(dice, list(KINDS), hunk.kind)
    hunk.content = b"" if hunk.kind == BSS else hunk.content


def change_byte(dice, hunks, hunk):
    if hunk.kind != BSS and hunk.size:
        bytes_ = bytearray(hunk.bytes())
        at = dice.choice([0, len(bytes_) - 1, dice.randrange(len(bytes_))])
        bytes_[at] = other(dice, [0, 1, 0x80, 0xFF, dice.randrange(256)], bytes_[at])
        hunk.content = bytes(bytes_)


def change_site(dice, hunks, hunk):
    if hunk.sites and dice.random() < 0.5:
        offset = dice.choice(list(hunk.sites))
        if len(hunks) > 1 and dice.random() < 0.5:
            hunk.sites[offset] = other(dice, range(len(hunks)), hunk.sites[offset])
        else:
            del hunk.sites[offset]
    elif hunk.size:
        offset = dice.choice([0, 4 * hunk.size - 4, dice.randrange(4 * hunk.size - 3)])
        hunk.sites = {at: target for at, target in hunk.sites.items() if abs(at - offset) >= 4} | {offset: dice.randrange(len(hunks))}


def change_symbol(dice, hunks, hunk):
    if hunk.symbols and dice.random() < 0.7:
        at = dice.randrange(len(hunk.symbols))
        name, value = hunk.symbols[at]
        new = dice.choice(([], [(name, value ^ 1 << dice.randrange(32))], [(name + b"x", value)], [(b"new", 1), (name, value)]))
        hunk.symbols[at : at + 1] = new
    else:
        hunk.symbols.append((random_name(dice), dice.randrange(MODULUS)))


def change_debug(dice, hunks, hunk):
    if hunk.debugs and dice.random() < 0.7:
        at = dice.randrange(len(hunk.debugs))
        hunk.debugs[at : at + 1] = dice.choice(([], [hunk.debugs[at] + [0]], [[it ^ 1 for it in hunk.debugs[at]]], [hunk.debugs[at], []]))
    else:
        hunk.debugs.append([])


def change_count(dice, hunks, hunk):
    hunks.append(LoadHunk(DATA, dice.randrange(2)))


def change_memory(dice, hunks, hunk):
    hunk.memory = other(dice, MEMORIES, hunk.memory)


def change_size(dice, hunks, hunk):
    hunk.size += dice.randrange(1, 3)


CHANGES = (*[change_byte, change_site] * 4, *[change_symbol, change_debug] * 2, change_kind, change_memory, change_size, change_count)


def altered(dice, hunks):
    """The hunks with one change, or with a few."""
    hunks = [hunk.copy() for hunk in hunks]
    for _ in range(dice.choice([1, 1, 1, 2, 3])):
        dice.choice(CHANGES)(dice, hunks, dice.choice(hunks))
    return hunks
