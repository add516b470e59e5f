// The list of hunks, each with a bar as long as its share of the largest.
// A part of the page that `page/make.sh` makes: change it here, and run that.

/** What the link of a place leads to, as the page's address tells it. */
function addressOf(hunk, offset) {
  return `#${hunk.index}:${hex(offset)}`;
}

class Hunks {
  constructor(file, viewport) {
    this.largest = file.hunks.reduce((most, hunk) => Math.max(most, hunk.size), 1);
    this.items = [];
    /** The row of each hunk, by its index: an object file has rows for its units as well. */
    this.rowOf = [];
    file.units.forEach((unit, number) => {
      if (file.isObject) {
        this.items.push({ unit, number });
      }
      for (const hunk of unit.hunks) {
        this.rowOf.push(this.items.length);
        this.items.push({ hunk });
      }
    });
    this.list = new LinkList(viewport, (row) => this.drawRow(row));
    this.list.reset(this.items.length);
  }

  drawRow(index) {
    const { hunk, unit, number } = this.items[index];
    const row = element("div", hunk ? "row hunk" : "row unit");
    row.setAttribute("role", "listitem");
    row.setAttribute("aria-setsize", this.items.length);
    row.setAttribute("aria-posinset", index + 1);
    row.append(hunk ? this.drawHunk(hunk) : this.drawUnit(unit, number));
    if (hunk !== undefined) {
      row.setAttribute("aria-current", hunk === this.current);
      row.classList.toggle("target", hunk === this.target);
    }
    return row;
  }

  drawUnit(unit, number) {
    const link = element("a", "facts");
    if (unit.hunks.length > 0) {
      link.href = addressOf(unit.hunks[0], 0);
    }
    const size = unit.hunks.length > 0 ? counted(unit.hunks.length, "hunk") : "no hunks";
    link.append(this.drawLine([["title", `unit ${number}`], ["name", unit.name], ["size", size]]));
    return link;
  }

  drawHunk(hunk) {
    const link = element("a", `facts ${hunk.kind}`);
    link.href = addressOf(hunk, 0);
    const number = hunk.title.slice(hunk.title.indexOf("hunk"));
    const parts = [["title", number], ["kind", hunk.kind], [`memory ${hunk.memory}`, hunk.memory], ["name", hunk.name]];
    link.append(this.drawLine([...parts, ["size", counted(hunk.size, "byte")]]), this.drawBar(hunk));
    return link;
  }

  drawLine(parts) {
    const line = element("span", "line");
    line.append(...parts.map(([name, text]) => element("span", name, text)));
    return line;
  }

  /** A bar of two parts: what the file has of the hunk, and the zeros up to its size. */
  drawBar(hunk) {
    const bar = element("span", "bar");
    bar.style.width = `${(100 * hunk.size) / this.largest}%`;
    bar.title = `${counted(hunk.stored, "byte")} stored, ${counted(hunk.size - hunk.stored, "zero")}`;
    const stored = bar.appendChild(element("span", "stored"));
    stored.style.width = hunk.size > 0 ? `${(100 * hunk.stored) / hunk.size}%` : "0";
    return bar;
  }

  /** The row of a hunk, if it is drawn. */
  row(hunk) {
    return hunk && this.list.rows.get(this.rowOf[hunk.index]);
  }

  /** Marks the hunk that is looked at. */
  setCurrent(hunk) {
    if (hunk !== this.current) {
      this.row(this.current)?.setAttribute("aria-current", false);
      this.current = hunk;
      this.row(hunk)?.setAttribute("aria-current", true);
    }
  }

  /** Marks the hunk that a site points at, or none. */
  setTarget(hunk) {
    this.row(this.target)?.classList.remove("target");
    this.target = hunk;
    this.row(hunk)?.classList.add("target");
  }
}
