#!/usr/bin/env python3
"""Writes what stands in a page around the document, head.html and tail.html, as constants of hunk_json; with --check only
says whether they are there, and its last line is then 'N passed, M failed'."""
import pathlib
import sys

PAGE = pathlib.Path(__file__).resolve().parent
SOURCE = PAGE.parent / "crates/hunk_json/src/page_sources.rt"
PARTS = {
    "HEAD": ("head.html", "What stands in a page before the document."),
    "TAIL": ("tail.html", "What stands in a page behind the document."),
}


def literal(text):
    """The text as a raw string, with as many number signs as it needs."""
    signs = "#"
    while '"' + signs in text:
        signs += "#"
    return f'r{signs}"{text}"{signs}'


def source():
    """The text of the source file."""
    lines = ["//! What stands in a page around the document: page/head.html and page/tail.html, as they are.",
             "//! page/embed.py writes this file."]
    for name, (part, about) in PARTS.items():
        text = (PAGE / part).read_bytes().decode()
        lines += ["", f"/// {about}", f"pub(crate) const {name}: &str = {literal(text)};"]
    return "\n".join(lines) + "\n"


def main():
    if sys.argv[1:] != ["--check"]:
        SOURCE.write_bytes(source().encode())
        return 0
    agree = SOURCE.is_file() and SOURCE.read_bytes() == source().encode()
    if not agree:
        print("FAILED: page_sources.rt of hunk_json is not what page/embed.py writes")
    print(f"{int(agree)} passed, {int(not agree)} failed")
    return int(not agree)


if __name__ == "__main__":
    sys.exit(main())
