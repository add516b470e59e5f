"""A plain model of linking and loading: units as Python values, their object files, the memory that they define, the map, and the
names that are not defined.

It knows nothing of load files, and nothing of how the program links: all of it is computed from the units alone.
"""
import random
import re
import struct

UNIT, NAME, CODE, DATA, BSS, RELOC32, EXT, SYMBOL, DEBUG, END, HEADER = *range(0x3E7, 0x3ED), *range(0x3EF, 0x3F4)
RELOC32SHORT = 0x3FC
DEF, ABS, REF32 = 1, 2, 129
KINDS = {CODE: "code", DATA: "data", BSS: "bss"}
MEMORIES = ("any", "chip", "fast")
MODULUS = 1 << 32


class Hunk:
    """A hunk of a unit. Its sites are pairs of an offset in bytes, and the number of a hunk of the unit or a name."""

    def __init__(self, kind, words, name=b"", memory="any"):
        self.kind, self.words, self.name, self.memory = kind, words, name, memory
        self.sites, self.definitions, self.symbols, self.debugs = [], [], [], []


class Unit(list):
    """The hunks of a unit that has a name. One without a name may also be a plain list."""

    def __init__(self, hunks, name):
        super().__init__(hunks)
        self.name = name


def name_of(unit):
    return getattr(unit, "name", b"")


def words(*numbers):
    """Longwords as they are stored."""
    return struct.pack(f">{len(numbers)}I", *numbers)


def text(name):
    """A name as it is stored: its longwords, without their number."""
    return name + b"\0" * (-len(name) % 4)


def titled(type_, name):
    """A block that has a name alone."""
    return words(type_, len(text(name)) // 4) + text(name)


def block_of_sites(hunk):
    targets = [target for _, target in hunk.sites if isinstance(target, int)]
    if not targets:
        return b""
    parts = [words(RELOC32)]
    for target in dict.fromkeys(targets):
        offsets = [offset for offset, it in hunk.sites if it == target]
        parts.append(words(len(offsets), target, *offsets))
    return b"".join(parts) + words(0)


def block_of_names(hunk):
    names = dict.fromkeys(target for _, target in hunk.sites if isinstance(target, bytes))
    if not names and not hunk.definitions:
        return b""
    parts = [words(EXT)]
    for kind, name, value in hunk.definitions:
        parts.append(words(kind << 24 | len(text(name)) // 4) + text(name) + words(value))
    for name in names:
        offsets = [offset for offset, it in hunk.sites if it == name]
        parts.append(words(REF32 << 24 | len(text(name)) // 4) + text(name) + words(len(offsets), *offsets))
    return b"".join(parts) + words(0)


def hunk_bytes(hunk):
    content = b"" if hunk.kind == BSS else words(*hunk.words)
    head = words(MEMORIES.index(hunk.memory) << 30 | hunk.kind, len(hunk.words))
    title = titled(NAME, hunk.name) if hunk.name else b""
    parts = [title, head, content, block_of_sites(hunk), block_of_names(hunk)]
    if hunk.symbols:
        rows = [words(len(text(name)) // 4) + text(name) + words(value) for name, value in hunk.symbols]
        parts.append(words(SYMBOL) + b"".join(rows) + words(0))
    parts += [words(DEBUG, len(debug), *debug) for debug in hunk.debugs]
    return b"".join(parts) + words(END)


def object_file(units):
    """The object file of some units, each a list of hunks."""
    return b"".join(titled(UNIT, name_of(unit)) + b"".join(map(hunk_bytes, unit)) for unit in units)


def memory_of(units, bases):
    """The bytes of each hunk in memory, with the hunks of all units, in order, at the bases."""
    first, at, values = 0, [], {}
    for unit in units:
        at.append(bases[first : first + len(unit)])
        first += len(unit)
        for base, hunk in zip(at[-1], unit):
            for kind, name, value in hunk.definitions:
                values[name] = value + (base if kind == DEF else 0)
    memory = []
    for unit, own in zip(units, at):
        for hunk in unit:
            bytes_ = bytearray(words(*hunk.words))
            for offset, target in hunk.sites:
                (was,) = struct.unpack_from(">I", bytes_, offset)
                added = own[target] if isinstance(target, int) else values[target]
                struct.pack_into(">I", bytes_, offset, (was + added) % MODULUS)
            memory.append(bytes(bytes_))
    return memory


def report_of(bases, memory):
    """What `load` and `image` print of a memory."""
    lines = []
    for number, (base, bytes_) in enumerate(zip(bases, memory)):
        lines.append(f"hunk {number} at {base:08x} size {len(bytes_)}")
        lines += [f"{base + at:08x} {bytes_[at : at + 16].hex()}" for at in range(0, len(bytes_), 16)]
    return "".join(f"{line}\n" for line in lines)


def record(kind, bytes_):
    """An S-record of this kind, whose address and data are these bytes."""
    counted = bytes([len(bytes_) + 1]) + bytes_
    return f"S{kind}{counted.hex().upper()}{255 - sum(counted) % 256:02X}\n"


def records_of(bases, memory):
    """What they print of it with `--srec`."""
    parts = [(base + at, bytes_[at : at + 32]) for base, bytes_ in zip(bases, memory) for at in range(0, len(bytes_), 32)]
    return record(0, b"\0\0amihunk") + "".join(record(3, words(address) + part) for address, part in parts) + record(7, words(0))


def quoted(name):
    """A name as it is printed."""
    return '"' + "".join(chr(it) if 32 <= it < 127 and it not in b'"\\' else f"\\x{it:02x}" for it in name) + '"'


def shown(file):
    """The name of a file, in bytes, in a line of `survey`, of a map or of what explains a failure: as it is, unless a terminal obeys a
    byte of it, or it has what ends a name."""
    text = file.decode("latin-1")
    return text if re.fullmatch("[ -~]*", text) and ": " not in text else quoted(file)


def symbols_of(units, bases):
    """What `load` and `image` print with `--symbols`, unless the symbols were left out."""
    hunks = [hunk for unit in units for hunk in unit]
    lines = [f"{(base + value) % MODULUS:08x} hunk {number} {quoted(name)}"
             for number, (base, hunk) in enumerate(zip(bases, hunks)) for name, value in hunk.symbols]
    return "".join(f"{line}\n" for line in lines)


def symbol_records_of(hunks, bases, memory):
    """What they print of hunks that have symbols with `--srec` and `--symbols`: names of visible ASCII characters with their
    addresses, how many others there are, and the S-records."""
    rows = [(name.decode("latin-1"), (base + value) % MODULUS) for base, hunk in zip(bases, hunks) for name, value in hunk.symbols]
    held = [f"  {name} ${address:08x}\n" for name, address in rows if re.fullmatch("[!-~]+", name)]
    left_out = len(rows) - len(held)
    told = record(0, b"\0\0symbols left out: %d" % left_out) if left_out else ""
    return "$$ amihunk\n" + "".join(held) + "$$ \n" + told + records_of(bases, memory)


def map_of(files):
    """What `link` writes with `--map`, of files that are each a name and its units."""
    lines, number = [], 0
    for file, units in files:
        for place, unit in enumerate(units):
            for own, hunk in enumerate(unit):
                front = f"hunk {number} {KINDS[hunk.kind]} {hunk.memory} {len(hunk.words)} longwords"
                lines.append(f"{front} {shown(file.encode())} unit {place} {quoted(name_of(unit))} hunk {own} {quoted(hunk.name)}")
                lines += [f"  define {quoted(name)} {'at' if kind == DEF else 'as'} {value:08x}" for kind, name, value in hunk.definitions]
                number += 1
    return "".join(f"{line}\n" for line in lines)


def undefined_names(files):
    """The names that hunks refer to and none defines, of files that are each a list of units: of each, in the order of the first
    references, how many references there are, and where the first is, by the numbers of the file, of the unit in it and of the hunk.

    A hunk refers once to a name that is added to several of its longwords, as `object_file` writes it."""
    hunks = [((file, place, own), hunk) for file, units in enumerate(files)
             for place, unit in enumerate(units) for own, hunk in enumerate(unit)]
    defined = {name for _, hunk in hunks for _, name, _ in hunk.definitions}
    uses = {}
    for place, hunk in hunks:
        for name in dict.fromkeys(target for _, target in hunk.sites if isinstance(target, bytes)):
            if name not in defined:
                count, first = uses.get(name, (0, place))
                uses[name] = count + 1, first
    return uses


def names_of(units):
    """What `show --names` prints of the object files of these units: a line for each symbol, each definition, and each name that
    none of them defines, once for a hunk that refers to it."""
    defined = {name for unit in units for hunk in unit for _, name, _ in hunk.definitions}
    rows = []
    for number, unit in enumerate(units):
        for own, hunk in enumerate(unit):
            letter, place = KINDS[hunk.kind][0].replace("c", "t"), f"unit {number} hunk {own}"
            rows += [(name, f"{value:08x} {letter}", place) for name, value in hunk.symbols]
            rows += [(name, f"{value:08x} {letter.upper() if kind == DEF else 'A'}", place) for kind, name, value in hunk.definitions]
            names = dict.fromkeys(target for _, target in hunk.sites if isinstance(target, bytes))
            rows += [(name, " " * 9 + "U", place) for name in names if name not in defined]
    rows.sort(key=lambda row: row[0])
    return "".join(f"{front} {quoted(name)} {place}\n" for name, front, place in rows)


def addresses(bases):
    """Bases as `--at` takes them."""
    return ",".join(f"{base:x}" for base in bases)


def random_hunk(dice, hunks, names):
    kind = dice.choice(list(KINDS))
    size = dice.choice([0, 1, 2, 3, 5, 8, 40])
    hunk = Hunk(kind, [0 if kind == BSS or dice.random() < 0.3 else dice.randrange(MODULUS) for _ in range(size)])
    offset = dice.randrange(3)
    while kind != BSS and offset + 4 <= 4 * size:
        if dice.random() < 0.5:
            target = dice.choice(names) if names and dice.random() < 0.5 else dice.randrange(hunks)
            hunk.sites.append((offset, target))
        offset += 4 + dice.choice([0, 0, 0, 1, 3, 6])
    dice.shuffle(hunk.sites)
    if dice.random() < 0.3:
        hunk.symbols = [(b"label%d" % it, dice.randrange(MODULUS)) for it in range(dice.randrange(1, 4))]
    if dice.random() < 0.2:
        hunk.debugs = [[dice.randrange(MODULUS) for _ in range(dice.randrange(4))]]
    return hunk


def random_units(seed):
    """Units that link, each with at least one hunk: every name is defined once, in a hunk that is drawn."""
    dice = random.Random(seed)
    names = [b"name%d" % it + b"x" * dice.randrange(6) for it in range(dice.randrange(6))]
    units = []
    for _ in range(dice.randrange(1, 5)):
        hunks = dice.randrange(1, 5)
        units.append([random_hunk(dice, hunks, names) for _ in range(hunks)])
    for name in names:
        hunk = dice.choice(dice.choice(units))
        hunk.definitions.append((dice.choice([DEF, ABS]), name, dice.randrange(MODULUS)))
    return units


def random_name(dice, least=0):
    """A name of plain letters, of characters of one to four bytes, or of any bytes but 0."""
    kind, size = dice.randrange(3), dice.randrange(least, 9)
    if kind == 0:
        return bytes(dice.choices(b"abcXYZ019_. ", k=size))
    if kind == 1:
        return "".join(dice.choices('a"\\/\b\t\n\f\r\x01\x1f\x7f\x80\xe9\u2028\u20ac\U0001f600', k=size)).encode()
    return bytes(dice.choices(range(1, 256), k=size))


def random_named_units(seed):
    """The units of `random_units`, in which everything has a random name, and the hunks are in any memory."""
    dice = random.Random(seed)
    units = [Unit(unit, random_name(dice)) for unit in random_units(seed)]
    hunks = [hunk for unit in units for hunk in unit]
    defined = [name for hunk in hunks for _, name, _ in hunk.definitions]
    # The digit at the end keeps them apart.
    names = {name: random_name(dice) + b"%d" % number for number, name in enumerate(defined)}
    for hunk in hunks:
        hunk.name, hunk.memory = random_name(dice), dice.choice(MEMORIES)
        hunk.sites = [(offset, names.get(target, target)) for offset, target in hunk.sites]
        hunk.definitions = [(kind, names[name], value) for kind, name, value in hunk.definitions]
        hunk.symbols = [(random_name(dice, 1), value) for _, value in hunk.symbols]
    return units


def dealt_out(dice, units):
    """The units of each of some files, in their order."""
    ends = sorted(dice.choices(range(1, len(units) + 1), k=dice.randrange(3))) + [len(units)]
    return [units[start:end] for start, end in zip([0, *ends[:-1]], ends) if start < end]


def random_options(dice):
    """Some of the options of a link."""
    return [it for it in ("--strip", "--short", "--trim") if dice.random() < 0.5]


def bases_apart(dice, sizes, free, gaps):
    """Addresses at which hunks of these sizes follow each other in any order, from the first free one on, with some of these gaps."""
    order, bases = list(range(len(sizes))), [0] * len(sizes)
    dice.shuffle(order)
    for number in order:
        bases[number] = free
        free += sizes[number] + dice.choice(gaps)
    return bases


def random_bases(seed, units):
    """Addresses at which the hunks are apart, in any order, and somewhere in 32 bits."""
    dice = random.Random(seed)
    sizes = [4 * len(hunk.words) for unit in units for hunk in unit]
    return bases_apart(dice, sizes, dice.choice([0, 3, 0x10000, 0xFFFE0000]), [0, 0, 1, 100])
