// Long lists, of which only the rows that are looked at are drawn.
// A part of the page that `page/make.sh` makes: change it here, and run that.

/** The tallest that a list is made, in pixels: browsers place nothing reliably much farther down. */
const TALLEST = 8_000_000;

/** How many rows are drawn above and below those that are seen. */
const MARGIN = 6;

/** An element of a class, with a text. All that a file tells is shown in this way, so it is never read as markup. */
function element(tag, className, text = "") {
  const made = document.createElement(tag);
  made.className = className;
  made.textContent = text;
  return made;
}

function between(least, number, most) {
  return Math.max(least, Math.min(number, most));
}

/** A list of rows of one height. Its position is that of what is seen, in pixels from the top of all rows. */
class Scroller {
  constructor(viewport, drawRow) {
    this.viewport = viewport;
    this.drawRow = drawRow;
    this.canvas = viewport.appendChild(element("div", "canvas"));
    this.rows = new Map();
    this.count = 0;
    this.position = 0;
    this.scrollTop = 0;
    /** The row that is drawn wherever it is, since it holds what the tab key leads to. */
    this.kept = -1;
    viewport.addEventListener("scroll", () => this.scrolled(), { passive: true });
    new ResizeObserver(() => this.resized()).observe(viewport);
  }

  measure() {
    const probe = this.canvas.appendChild(element("div", "row"));
    const { height } = probe.getBoundingClientRect();
    probe.remove();
    return height;
  }

  /** The height of a row may depend on the width of the list. */
  resized() {
    const first = this.firstSeen;
    if (this.measure() === this.rowHeight) {
      this.moveTo(this.position);
    } else {
      this.reset(this.count);
      this.moveTo(first * this.rowHeight);
    }
  }

  /** Begins again with so many rows. */
  reset(count) {
    this.rowHeight = this.measure();
    this.count = count;
    this.rows.clear();
    this.canvas.replaceChildren();
    this.canvas.style.height = `${Math.min(count * this.rowHeight, TALLEST)}px`;
    this.moveTo(this.position);
  }

  /** The farthest position. */
  get end() {
    return Math.max(0, this.count * this.rowHeight - this.viewport.clientHeight);
  }

  /** The farthest that the browser scrolls, which is less in a list that is made lower than its rows would be. */
  get scrollEnd() {
    return Math.max(0, Math.min(this.count * this.rowHeight, TALLEST) - this.viewport.clientHeight);
  }

  get isLowered() {
    return this.count * this.rowHeight > TALLEST;
  }

  moveTo(position) {
    this.position = between(0, position, this.end);
    const share = this.end > 0 ? this.scrollEnd / this.end : 1;
    const inside = this.position > 0 && this.position < this.end;
    const top = this.position * share;
    this.viewport.scrollTop = this.isLowered && inside ? between(2, top, this.scrollEnd - 2) : top;
    this.scrollTop = this.viewport.scrollTop;
    this.draw();
  }

  /** Follows the browser. In a lowered list, a short way is one over the rows, and a long way one over the whole list. */
  scrolled() {
    const top = this.viewport.scrollTop;
    const way = top - this.scrollTop;
    this.scrollTop = top;
    if (!this.isLowered) {
      this.position = top;
    } else if (top <= 1 || top >= this.scrollEnd - 1) {
      this.position = top <= 1 ? 0 : this.end;
    } else if (Math.abs(way) > 2 * this.viewport.clientHeight) {
      this.position = (top / this.scrollEnd) * this.end;
    } else {
      this.position = between(0, this.position + way, this.end);
    }
    this.draw();
    if (this.isLowered && way !== 0) {
      clearTimeout(this.settling);
      this.settling = setTimeout(() => this.moveTo(this.position), 250);
    }
  }

  /** Moves a row into view, if it is not, and draws it. */
  reveal(index) {
    const top = index * this.rowHeight;
    const height = this.viewport.clientHeight;
    const isSeen = top >= this.position && top + this.rowHeight <= this.position + height;
    this.moveTo(isSeen ? this.position : top - height / 3);
  }

  /** The first row that is seen. */
  get firstSeen() {
    return Math.floor(this.position / this.rowHeight);
  }

  /** Draws a row again, if it is drawn. */
  redraw(index) {
    this.rows.get(index)?.remove();
    this.rows.delete(index);
    this.draw();
  }

  /** Draws the rows that are seen, in their order, and drops those that no longer are. */
  draw() {
    const seen = Math.ceil(this.viewport.clientHeight / (this.rowHeight || 1));
    const first = Math.max(0, this.firstSeen - MARGIN);
    const wanted = [];
    for (let index = first; index < Math.min(this.count, first + seen + 2 * MARGIN); index += 1) {
      wanted.push(index);
    }
    if (this.kept >= 0 && this.kept < this.count && !wanted.includes(this.kept)) {
      wanted.splice(this.kept < first ? 0 : wanted.length, 0, this.kept);
    }
    const drop = new Set(this.rows.keys());
    wanted.forEach((index) => drop.delete(index));
    for (const index of drop) {
      this.rows.get(index).remove();
      this.rows.delete(index);
    }
    this.place(wanted);
    this.drawn?.();
  }

  place(wanted) {
    const shift = this.position - this.scrollTop;
    let next = this.canvas.firstChild;
    for (const index of wanted) {
      const row = this.rows.get(index) ?? this.make(index);
      row.style.transform = `translateY(${index * this.rowHeight - shift}px)`;
      if (row === next) {
        next = next.nextSibling;
      } else {
        this.canvas.insertBefore(row, next);
      }
    }
  }

  make(index) {
    const row = this.drawRow(index);
    row.dataset.index = index;
    this.rows.set(index, row);
    return row;
  }
}

/** A list whose rows have a link each. One of them is in the tab order, and the arrow keys move between them. */
class LinkList extends Scroller {
  constructor(viewport, drawRow) {
    super(viewport, drawRow);
    this.kept = 0;
    viewport.addEventListener("keydown", (event) => this.pressed(event));
    viewport.addEventListener("focusin", (event) => this.focused(event.target.closest(".row")));
  }

  make(index) {
    const row = super.make(index);
    row.querySelector("a").tabIndex = index === this.kept ? 0 : -1;
    return row;
  }

  /** Lets the tab key lead to a row. */
  keep(index) {
    for (const [at, row] of this.rows) {
      row.querySelector("a").tabIndex = at === index ? 0 : -1;
    }
    this.kept = index;
  }

  /** What has got the focus is the list itself in some browsers, and otherwise the link of a row. */
  focused(row) {
    if (row) {
      this.keep(Number(row.dataset.index));
    }
  }

  focus(index) {
    this.keep(index);
    this.reveal(index);
    this.rows.get(index)?.querySelector("a").focus({ preventScroll: true });
  }

  pressed(event) {
    const page = Math.max(1, Math.floor(this.viewport.clientHeight / this.rowHeight) - 1);
    const ways = { ArrowUp: -1, ArrowDown: 1, PageUp: -page, PageDown: page, Home: -Infinity, End: Infinity };
    if (event.key in ways && !event.altKey && !event.ctrlKey && !event.metaKey) {
      event.preventDefault();
      this.focus(between(0, this.kept + ways[event.key], this.count - 1));
    }
  }
}
