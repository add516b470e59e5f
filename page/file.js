// The file as values: its hunks with their bytes and names, and what its sites point at. Nothing here draws.
// A part of the page that `page/make.sh` makes: change it here, and run that.

/** How many bytes of a content are decoded at a time: a multiple of three, since base64 spells three bytes by four letters. */
const BLOCK = 3 * 4096;

/** Characters that nobody would see, or that change how others are seen; and the backslash, which begins an escape. */
const HIDDEN = /[\\\p{Cc}\p{Cf}\p{Zl}\p{Zp}]/gu;

function hex(number, digits = 8) {
  return number.toString(16).padStart(digits, "0");
}

/** A count with its noun: `1 hunk`, `2,000 hunks`. */
function counted(count, noun) {
  return `${count.toLocaleString("en")} ${noun}${count === 1 ? "" : "s"}`;
}

function escaped(code) {
  return code < 0x80 ? `\\x${hex(code, 2)}` : `\\u${hex(code, 4)}`;
}

/** A name as it is shown: a text, or bytes that are not UTF-8. Different names are spelled differently. */
function spelled(name) {
  if (typeof name === "string") {
    return name.replace(HIDDEN, (it) => escaped(it.codePointAt(0)));
  }
  const letter = (byte) => (byte < 0x80 ? spelled(String.fromCharCode(byte)) : `\\x${hex(byte, 2)}`);
  return name.map(letter).join("");
}

/** The index of the last of some things, sorted by a key, whose key is at most a number; -1 if there is none. */
function lastUpTo(things, most, key = "offset") {
  let [first, end] = [0, things.length];
  while (first < end) {
    const middle = (first + end) >> 1;
    if (things[middle][key] <= most) {
      first = middle + 1;
    } else {
      end = middle;
    }
  }
  return first - 1;
}

/** A hunk. Its sizes are in bytes, and its index counts the hunks of all units. */
class Hunk {
  constructor(facts, index, title, unit) {
    Object.assign(this, { index, title, unit });
    this.kind = facts.kind;
    this.memory = facts.memory;
    this.name = spelled(facts.name ?? "");
    this.size = 4 * facts.size;
    this.sites = facts.sites;
    this.symbols = facts.symbols;
    this.definitions = facts.definitions ?? [];
    this.debugs = facts.debugs;
    this.content = facts.content ?? "";
    this.contentOffset = facts.content_offset;
    const padding = this.content.endsWith("==") ? 2 : Number(this.content.endsWith("="));
    this.stored = (this.content.length / 4) * 3 - padding;
    this.blocks = [];
  }

  /** The byte at an offset: as it is stored, or zero past all that is stored. */
  byte(offset) {
    if (offset >= this.stored) {
      return 0;
    }
    const number = Math.floor(offset / BLOCK);
    const letters = (BLOCK / 3) * 4;
    this.blocks[number] ??= atob(this.content.slice(number * letters, (number + 1) * letters));
    return this.blocks[number].charCodeAt(offset % BLOCK);
  }

  longword(offset) {
    return [0, 1, 2, 3].reduce((number, index) => number * 256 + this.byte(offset + index), 0);
  }

  /** The names that stand for offsets of this hunk, by rising offset. They are sorted once somebody asks. */
  get labels() {
    if (this.sorted === undefined) {
      const offsets = [...this.symbols, ...this.definitions.filter((it) => !it.absolute)];
      this.sorted = offsets.map((it) => ({ offset: it.value, name: it.name }));
      this.sorted.sort((one, other) => one.offset - other.offset);
    }
    return this.sorted;
  }

  /** The site that has the byte at an offset, if one does. */
  siteWith(offset) {
    const site = this.sites[lastUpTo(this.sites, offset)];
    return site && offset < site.offset + 4 ? site : undefined;
  }

  /** The name at an offset, or the last before it, and how far: `loop + 4`; empty if there is none. */
  nearest(offset) {
    const label = this.labels[lastUpTo(this.labels, offset)];
    if (label === undefined) {
      return "";
    }
    const distance = offset - label.offset;
    return spelled(label.name) + (distance > 0 ? ` + ${distance}` : "");
  }
}

/** A hunk file of either kind. A load file has one unit here, which nothing names. */
class HunkFile {
  constructor(facts) {
    this.isObject = facts.kind === "object file";
    this.hunks = [];
    this.units = (facts.units ?? [facts]).map((unit, number) => this.unit(unit, number));
    this.definitions = new Map();
    for (const hunk of this.hunks) {
      for (const definition of hunk.definitions) {
        this.definitions.set(spelled(definition.name), { ...definition, hunk });
      }
    }
  }

  unit(facts, number) {
    const unit = { name: spelled(facts.name ?? ""), hunks: [] };
    const front = this.isObject ? `unit ${number} ` : "";
    for (const hunk of facts.hunks) {
      unit.hunks.push(new Hunk(hunk, this.hunks.length, `${front}hunk ${unit.hunks.length}`, unit));
      this.hunks.push(unit.hunks.at(-1));
    }
    return unit;
  }

  /** Where the longword at a site points: a hunk and an offset in it, or why it points nowhere in this file. */
  target(hunk, site) {
    const added = hunk.longword(site.offset);
    if (site.hunk !== undefined) {
      const target = hunk.unit.hunks[site.hunk];
      return target ? { hunk: target, offset: added } : { nowhere: `there is no hunk ${site.hunk} in its unit` };
    }
    const definition = this.definitions.get(spelled(site.name));
    if (definition === undefined) {
      return { nowhere: "this file does not define the name" };
    }
    const sum = (definition.value + added) % 2 ** 32;
    return definition.absolute ? { nowhere: `the number ${hex(sum)}` } : { hunk: definition.hunk, offset: sum };
  }

  /** The first site at an offset of a hunk or after it, also in the hunks that follow. */
  siteFrom(index, offset) {
    for (; index < this.hunks.length; index += 1, offset = 0) {
      const hunk = this.hunks[index];
      const site = hunk.sites[lastUpTo(hunk.sites, offset - 1) + 1];
      if (site !== undefined) {
        return { hunk, offset: site.offset };
      }
    }
    return undefined;
  }

  /** The last site at an offset of a hunk or before it, also in the hunks before. */
  siteUpTo(index, offset) {
    for (; index >= 0; index -= 1, offset = Infinity) {
      const hunk = this.hunks[index];
      const site = hunk.sites[lastUpTo(hunk.sites, offset)];
      if (site !== undefined) {
        return { hunk, offset: site.offset };
      }
    }
    return undefined;
  }
}
