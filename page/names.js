// The table of names: symbols, definitions and references, which a filter makes shorter.
// A part of the page that `page/make.sh` makes: change it here, and run that.

/** All names of a file, in its order, with what they are and where. */
function namesOf(file) {
  const names = [];
  for (const hunk of file.hunks) {
    for (const { name, value, absolute } of hunk.definitions) {
      names.push({ name: spelled(name), what: absolute ? "number" : "definition", hunk, offset: value });
    }
    for (const { name, value } of hunk.symbols) {
      names.push({ name: spelled(name), what: "symbol", hunk, offset: value });
    }
    for (const { name, offset } of hunk.sites) {
      if (name !== undefined) {
        names.push({ name: spelled(name), what: "reference", hunk, offset });
      }
    }
  }
  return names;
}

class Names {
  constructor(file, { viewport, filter, count }) {
    Object.assign(this, { filter, count });
    this.all = namesOf(file);
    this.found = this.all;
    this.list = new LinkList(viewport, (row) => this.drawRow(row));
    filter.addEventListener("input", () => this.find());
    filter.addEventListener("keydown", (event) => this.pressed(event));
    this.find();
  }

  /** Keeps the names that have the filter's text, in any case. */
  find() {
    const wanted = this.filter.value.toLowerCase();
    this.found = wanted === "" ? this.all : this.all.filter((it) => it.name.toLowerCase().includes(wanted));
    const all = counted(this.all.length, "name");
    const some = `${this.found.length.toLocaleString("en")} of ${all}`;
    this.count.textContent = this.all.length === 0 ? "none in this file" : wanted === "" ? all : some;
    this.list.viewport.parentElement.setAttribute("aria-rowcount", this.found.length + 1);
    this.list.kept = 0;
    this.list.position = 0;
    this.list.reset(this.found.length);
  }

  drawRow(index) {
    const { name, what, hunk, offset } = this.found[index];
    const link = element("a", "name", name || "(empty)");
    link.classList.toggle("empty", name === "");
    link.href = addressOf(hunk, what === "number" ? hunk.size : offset);
    const place = what === "number" ? hex(offset) : `${hunk.title} + ${hex(offset)}`;
    const row = element("div", "row");
    row.setAttribute("role", "row");
    row.setAttribute("aria-rowindex", index + 2);
    const cells = [link, element("span", `what ${what}`, what), element("span", "place", place)].map((content) => {
      const cell = element("span", "cell");
      cell.setAttribute("role", "cell");
      cell.append(content);
      return cell;
    });
    row.append(...cells);
    return row;
  }

  pressed(event) {
    if (event.key === "Escape") {
      this.filter.value = "";
      this.find();
    } else if (event.key === "ArrowDown" && this.found.length > 0) {
      event.preventDefault();
      this.list.focus(0);
    } else if (event.key === "Enter" && this.found.length > 0) {
      this.list.rows.get(0).querySelector("a").click();
    }
  }
}
