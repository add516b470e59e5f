// The page: what is told of a site, how one goes to a place, and the keys that work everywhere.
// A part of the page that `page/make.sh` makes: change it here, and run that.

const byId = (id) => document.getElementById(id);

/** A place in words, with the name there or before. */
function placeInWords({ hunk, offset }) {
  if (offset >= 2 ** 31) {
    return `${hunk.title} − ${hex(2 ** 32 - offset)}, before it`;
  }
  if (offset >= hunk.size) {
    return offset === hunk.size ? `the end of ${hunk.title}` : `${hunk.title} + ${hex(offset)}, past its end`;
  }
  const nearest = hunk.nearest(offset);
  return `${hunk.title} + ${hex(offset)}${nearest ? `, ${nearest}` : ""}`;
}

/** The page over a file. */
class Page {
  constructor(file) {
    this.file = file;
    this.writeSummary();
    this.hunks = new Hunks(file, byId("hunks"));
    this.names = new Names(file, { viewport: byId("names"), filter: byId("filter"), count: byId("names-count") });
    this.bytes = new Bytes(file, byId("bytes"));
    this.bytes.scroller.drawn = () => this.followBytes();
    this.followBytes();
    this.tell(undefined);
    this.listen();
    this.follow();
  }

  writeSummary() {
    const { isObject, units, hunks } = this.file;
    const total = (of) => hunks.reduce((sum, hunk) => sum + of(hunk), 0);
    const parts = [counted(hunks.length, "hunk"), counted(total((it) => it.size), "byte"), counted(total((it) => it.sites.length), "site")];
    byId("summary").textContent = [...(isObject ? [counted(units.length, "unit")] : []), ...parts].join(" · ");
    byId("title").textContent = isObject ? "Object file" : "Load file";
    document.title = `${byId("title").textContent}, ${parts[0]}`;
  }

  listen() {
    const bytes = this.bytes.viewport;
    bytes.addEventListener("pointerover", (event) => this.hovered(event));
    bytes.addEventListener("pointerleave", () => this.tell(undefined));
    bytes.addEventListener("focusin", (event) => this.tell(this.bytes.siteOf(event.target)));
    addEventListener("hashchange", () => this.follow());
    addEventListener("click", (event) => this.clicked(event.target.closest?.("a[href]")));
    addEventListener("keydown", (event) => {
      if (event.key === "/" && document.activeElement !== byId("filter")) {
        event.preventDefault();
        byId("filter").select();
      }
    });
  }

  /** Tells of what the pointer has been moved to, and not of what was scrolled below it, perhaps by a key. */
  hovered(event) {
    const place = `${event.screenX} ${event.screenY}`;
    if (place !== this.pointer) {
      this.pointer = place;
      this.tell(this.bytes.siteOf(event.target));
    }
  }

  /** Lets the browser's way back lead to the site that one has left. A link to where one is does nothing in a browser. */
  clicked(link) {
    if (!link) {
      return;
    }
    const site = this.bytes.siteOf(link);
    if (site) {
      history.replaceState(null, "", addressOf(site.hunk, site.offset));
    }
    if (link.hash === location.hash) {
      this.follow();
    }
  }

  /** Goes to the place that the page's address tells. */
  follow() {
    const [, index, digits] = /^#(\d+):([0-9a-f]{8})$/.exec(location.hash) ?? [];
    const hunk = this.file.hunks[index];
    if (hunk) {
      this.bytes.go({ hunk, offset: parseInt(digits, 16) });
      this.tell(undefined);
    }
  }

  /** Tells which hunk is looked at. */
  followBytes() {
    const hunk = this.bytes.firstPlace()?.hunk;
    byId("where").textContent = hunk ? `${hunk.title}${hunk.name && ` ${hunk.name}`}` : "none in this file";
    this.hunks.setCurrent(hunk);
  }

  /** Tells of a site, or else of that at the cursor. */
  tell(told) {
    const { hunk, offset, site } = told ?? { ...this.bytes.cursor, site: this.bytes.cursor.hunk?.siteWith(this.bytes.cursor.offset) };
    byId("detail").classList.toggle("is-site", site !== undefined);
    const target = site && this.file.target(hunk, site);
    this.hunks.setTarget(told && target?.hunk);
    const at = hunk && (site?.offset ?? offset);
    byId("detail-place").textContent = hunk ? placeInWords({ hunk, offset: at }) : "–";
    byId("detail-adds").textContent = site ? addedBy(site) : "nothing: this is no site";
    byId("detail-longword").textContent = hunk && at + 4 <= hunk.size ? hex(hunk.longword(at)) : "–";
    byId("detail-target").textContent = target ? target.nowhere ?? placeInWords(target) : "–";
    const isStored = hunk && hunk.contentOffset !== undefined && at < hunk.stored;
    byId("detail-file").textContent = isStored ? hex(hunk.contentOffset + at) : hunk ? "not stored" : "–";
  }
}

new Page(new HunkFile(JSON.parse(byId("document").textContent)));
