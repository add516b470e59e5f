// The bytes of all hunks, one after another, as a dump: offset, bytes in hexadecimal, and what they are as ASCII.
// A part of the page that `page/make.sh` makes: change it here, and run that.

/** How many bytes a row may have: as many as fit. */
const COLUMNS = [16, 8, 4];

/** The most names that a row tells of. */
const MOST_LABELS = 8;

/** The space between the bytes of a row is twice as wide after each eighth. */
function gapAfter(offset) {
  return offset % 8 === 7 ? "  " : " ";
}

/** How many letters so many bytes of a row take in hexadecimal. */
function hexLetters(columns) {
  return 3 * columns - 1 + (columns === 16 ? 1 : 0);
}

/** The letters of a row with so many bytes: the offset, the bytes and the text, with the gaps of style.css between them. */
function lettersOf(columns) {
  return 8 + hexLetters(columns) + columns + 2 * (columns === 16 ? 2 : 1);
}

function hexOf(hunk, from, to) {
  let text = "";
  for (let offset = from; offset < to; offset += 1) {
    text += hex(hunk.byte(offset), 2) + (offset + 1 < to ? gapAfter(offset) : "");
  }
  return text;
}

function asciiOf(hunk, from, to) {
  let text = "";
  for (let offset = from; offset < to; offset += 1) {
    const byte = hunk.byte(offset);
    text += byte >= 32 && byte < 127 ? String.fromCharCode(byte) : ".";
  }
  return text;
}

/** What a site adds, in words. */
function addedBy(site) {
  return site.hunk === undefined ? `value of ${spelled(site.name) || "the empty name"}` : `base of hunk ${site.hunk}`;
}

/** The dump. Its cursor is the one place in it that the tab key leads to: a site, or where one went. */
class Bytes {
  constructor(file, viewport) {
    this.file = file;
    this.viewport = viewport;
    this.scroller = new Scroller(viewport, (row) => this.drawRow(row));
    this.cursor = file.siteFrom(0, 0) ?? { hunk: file.hunks[0], offset: 0 };
    viewport.addEventListener("keydown", (event) => this.pressed(event));
    viewport.addEventListener("focusin", (event) => this.focused(event.target));
    new ResizeObserver(() => this.layOut()).observe(viewport);
    this.layOut();
  }

  /** Gives each row as many bytes as fit, and each hunk its rows: a heading, and those of its bytes. */
  layOut() {
    const probe = this.viewport.appendChild(element("span", "probe", "0".repeat(100)));
    const letters = (this.viewport.clientWidth - 2 * probe.offsetLeft) / (probe.getBoundingClientRect().width / 100);
    probe.remove();
    const columns = COLUMNS.find((it) => lettersOf(it) <= letters) ?? COLUMNS.at(-1);
    if (columns === this.columns) {
      return;
    }
    const seen = this.columns && this.firstPlace();
    this.columns = columns;
    this.viewport.dataset.columns = columns;
    let rows = 0;
    for (const hunk of this.file.hunks) {
      hunk.firstRow = rows;
      rows += 1 + Math.ceil(hunk.size / columns);
    }
    this.keepCursor();
    this.scroller.reset(rows);
    if (seen) {
      this.scroller.moveTo(this.rowOf(seen) * this.scroller.rowHeight);
    }
  }

  hunkOfRow(index) {
    return this.file.hunks[lastUpTo(this.file.hunks, index, "firstRow")];
  }

  /** The row of a place. One outside its hunk is told by the heading. */
  rowOf({ hunk, offset }) {
    return hunk.firstRow + (offset < hunk.size ? 1 + Math.floor(offset / this.columns) : 0);
  }

  /** The first place that is seen. */
  firstPlace() {
    const row = this.scroller.firstSeen;
    const hunk = this.hunkOfRow(row);
    return hunk && { hunk, offset: Math.max(0, row - hunk.firstRow - 1) * this.columns };
  }

  // ---- drawing

  drawRow(index) {
    const hunk = this.hunkOfRow(index);
    if (index === hunk.firstRow) {
      return this.drawHeading(hunk);
    }
    const start = (index - hunk.firstRow - 1) * this.columns;
    const end = Math.min(start + this.columns, hunk.size);
    const row = element("div", "row");
    const bytes = element("span", "bytes");
    bytes.style.width = `${hexLetters(this.columns)}ch`;
    const cuts = this.cuts(hunk, start, end);
    cuts.slice(1).forEach((to, index) => {
      bytes.append(this.drawRun(hunk, cuts[index], to), to < end ? gapAfter(to - 1) : "");
    });
    row.append(element("span", "offset", hex(start)), bytes, this.drawText(hunk, start, end));
    row.append(this.drawLabels(hunk, start, end));
    return row;
  }

  drawHeading(hunk) {
    const row = element("div", `row heading ${hunk.kind}`);
    const isCursor = this.cursor.hunk === hunk && this.cursor.offset >= hunk.size;
    const title = row.appendChild(element("h3", isCursor ? "here" : "", hunk.title));
    if (isCursor) {
      title.tabIndex = 0;
    }
    const notes = [hunk.kind, hunk.memory, counted(hunk.size, "byte")];
    if (hunk.stored < hunk.size) {
      notes.push(`${hunk.stored.toLocaleString("en")} stored`);
    }
    if (hunk.contentOffset !== undefined && hunk.stored > 0) {
      notes.push(`at ${hex(hunk.contentOffset)} of the file`);
    }
    if (hunk.debugs.length > 0) {
      notes.push(counted(hunk.debugs.length, "debug block"));
    }
    row.append(element("span", "name", hunk.name), element("span", "notes", notes.join(" · ")));
    return row;
  }

  /** The offsets at which the bytes of a row begin to be drawn in another way, and its end. */
  cuts(hunk, start, end) {
    const cuts = [start, end, hunk.stored];
    const sites = lastUpTo(hunk.sites, start - 4) + 1;
    for (let index = sites; index < hunk.sites.length && hunk.sites[index].offset < end; index += 1) {
      cuts.push(hunk.sites[index].offset, hunk.sites[index].offset + 4);
    }
    const places = this.labelsOf(hunk, start, end).map((label) => label.offset);
    cuts.push(...places.filter((offset) => !hunk.siteWith(offset)));
    if (this.cursor.hunk === hunk && !hunk.siteWith(this.cursor.offset)) {
      cuts.push(this.cursor.offset, this.cursor.offset + 1);
    }
    const inside = cuts.filter((offset) => offset >= start && offset <= end);
    return [...new Set(inside)].sort((one, other) => one - other);
  }

  labelsOf(hunk, start, end) {
    const first = lastUpTo(hunk.labels, start - 1) + 1;
    return hunk.labels.slice(first, first + MOST_LABELS).filter((label) => label.offset < end);
  }

  /** Bytes that are drawn in one way: those of a site as a link to what it points at. */
  drawRun(hunk, from, to) {
    const site = hunk.siteWith(from);
    const run = element(site ? "a" : "span", "run", hexOf(hunk, from, to));
    run.classList.toggle("zeros", from >= hunk.stored);
    run.classList.toggle("named", hunk.labels[lastUpTo(hunk.labels, from)]?.offset === from);
    if (site !== undefined) {
      this.drawSite(run, hunk, site, from);
    }
    if (this.cursor.hunk === hunk && this.cursor.offset === from) {
      run.classList.add("here");
      run.tabIndex = 0;
    }
    return run;
  }

  drawSite(link, hunk, site, from) {
    const target = this.file.target(hunk, site);
    link.classList.add("site", site.hunk === undefined ? "adds-name" : "adds-hunk");
    link.dataset.hunk = hunk.index;
    link.dataset.offset = site.offset;
    link.tabIndex = -1;
    if (target.hunk !== undefined) {
      link.href = addressOf(target.hunk, target.offset);
    }
    if (from === site.offset) {
      link.setAttribute("aria-label", `site ${hex(site.offset)}, adds ${addedBy(site)}`);
      link.setAttribute("aria-describedby", "detail");
    } else {
      link.classList.add("rest");
    }
  }

  drawText(hunk, start, end) {
    const stored = between(start, hunk.stored, end);
    const text = element("span", "ascii", asciiOf(hunk, start, stored));
    text.setAttribute("aria-hidden", "true");
    text.append(element("span", "zeros", asciiOf(hunk, stored, end)));
    text.style.width = `${this.columns}ch`;
    return text;
  }

  drawLabels(hunk, start, end) {
    const names = element("span", "labels");
    names.append(...this.labelsOf(hunk, start, end).map((label) => element("bdi", "name", spelled(label.name))));
    return names;
  }

  // ---- the cursor

  keepCursor() {
    this.scroller.kept = this.cursor.hunk ? this.rowOf(this.cursor) : -1;
  }

  setCursor(place) {
    const before = this.scroller.kept;
    this.cursor = place;
    this.keepCursor();
    this.scroller.redraw(before);
    this.scroller.redraw(this.scroller.kept);
  }

  /** Goes to a place, or to the site that it lies in, and gives it the focus. */
  go({ hunk, offset }) {
    this.setCursor({ hunk, offset: hunk.siteWith(offset)?.offset ?? offset });
    this.scroller.reveal(this.scroller.kept);
    this.scroller.rows.get(this.scroller.kept)?.querySelector(".here")?.focus({ preventScroll: true });
  }

  /** What has got the focus, by a click as well, is where the arrow keys start from. */
  focused(link) {
    const site = this.siteOf(link);
    if (site && (site.hunk !== this.cursor.hunk || site.offset !== this.cursor.offset) && !link.classList.contains("here")) {
      this.viewport.querySelectorAll(".here").forEach((it) => {
        it.classList.remove("here");
        it.tabIndex = -1;
      });
      this.cursor = { hunk: site.hunk, offset: site.offset };
      this.keepCursor();
      link.classList.add("here");
      link.tabIndex = 0;
    }
  }

  /** The site that a link stands for, with its hunk. */
  siteOf(link) {
    const hunk = this.file.hunks[link?.dataset?.hunk];
    return hunk && { hunk, offset: Number(link.dataset.offset), site: hunk.siteWith(Number(link.dataset.offset)) };
  }

  pressed(event) {
    const { hunk, offset } = this.cursor;
    const searches = {
      ArrowRight: () => this.file.siteFrom(hunk.index, offset + 1),
      ArrowLeft: () => this.file.siteUpTo(hunk.index, offset - 1),
      ArrowDown: () => this.file.siteFrom(hunk.index, offset + this.columns),
      ArrowUp: () => this.file.siteUpTo(hunk.index, offset - this.columns),
    };
    const search = event.altKey || event.ctrlKey || event.metaKey || !hunk ? undefined : searches[event.key];
    const place = search?.();
    if (place !== undefined) {
      event.preventDefault();
      this.go(place);
    }
  }
}
