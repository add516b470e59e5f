"""Where the contents of the hunks of a file stand in it, by a reader of its blocks that knows no more of them."""
from load_files import Reader, read_sites
from model import BSS, CODE, DATA, DEBUG, END, EXT, HEADER, NAME, RELOC32, RELOC32SHORT, SYMBOL, UNIT


def skip_names(reader):
    """External symbols up to their end: a definition has a value, and a reference has a count of offsets, and these."""
    while entry := reader.next():
        reader.several(entry % (1 << 24))
        number = reader.next()
        if entry >> 31:
            reader.several(number)


def skip_symbols(reader):
    while length := reader.next():
        reader.several(length + 1)


def skip_block(reader, block):
    """What follows the type of a block that is not content."""
    if block in (UNIT, NAME, DEBUG):
        reader.several(reader.next())
    elif block == RELOC32:
        read_sites(iter(reader.next, None))
    elif block == RELOC32SHORT:
        read_sites(reader.halves())
    elif block == EXT:
        skip_names(reader)
    elif block == SYMBOL:
        skip_symbols(reader)
    else:
        assert block == END, block


def content_offsets(bytes_):
    """The offset of the content of each hunk of a file that has no fault, in bytes."""
    reader, offsets = Reader(bytes_), []
    if reader.numbers[0] == HEADER:
        reader.several(2)
        count = reader.next()
        reader.several(2 + count)
    while reader.at < len(reader.numbers):
        block = reader.next() % (1 << 30)
        if block in (CODE, DATA, BSS):
            size = reader.next() % (1 << 30)
            offsets.append(4 * reader.at)
            reader.several(0 if block == BSS else size)
        else:
            skip_block(reader, block)
    return offsets
