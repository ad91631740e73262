"""Whether the links of the pages lead to files and headings that are there. tests/rules calls `lacking`.

A heading's anchor is as GitHub makes it: small letters, digits, hyphens and low lines, a hyphen for each space. Links to other hosts
aren't followed.
"""
from __future__ import annotations

import os
import re
import subprocess

LINK = re.compile(r"(?<!\\)\[[^\]]*\]\(([^)\s]+)\)")


def without_code(text: str) -> str:
    """A page's `text` without its blocks of code and without code in backticks."""
    lines = ("" if line.startswith("    ") else line for line in text.split("\n"))
    return re.sub(r"`[^`\n]*`", "", "\n".join(lines))


def anchors_of(text: str) -> set[str]:
    """The anchors of the headings of a page's `text`."""
    found: list[str] = []
    for title in re.findall(r"^#+ (.*)", text, re.MULTILINE):
        plain = re.sub(r"\[([^\]]*)\]\([^)]*\)", r"\1", title).replace("`", "").strip().lower()
        slug = re.sub(r"[^\w\- ]", "", plain).replace(" ", "-")
        found.append(f"{slug}-{found.count(slug)}" if slug in found else slug)
    return set(found)


def pages_at(top: str) -> list[str]:
    """The pages of the repository at `top`, by their paths. In a copy that isn't a repository, all files that end with .md."""
    listed = subprocess.run(["git", "ls-files", "--cached", "--others", "--exclude-standard", "*.md"], cwd=top, capture_output=True, text=True, check=False)
    if listed.returncode == 0 and os.path.isdir(os.path.join(top, ".git")):
        return [it for it in listed.stdout.split("\n") if it and os.path.isfile(os.path.join(top, it))]
    return [os.path.relpath(os.path.join(folder, name), top) for folder, _, names in os.walk(top) for name in names if name.endswith(".md")]


def lacking(top: str) -> tuple[int, list[str]]:
    """How many links the pages of the repository at `top` have, and a line for each that leads nowhere."""
    texts = {}
    for page in pages_at(top):
        with open(os.path.join(top, page), encoding="utf-8") as it:
            texts[page] = it.read()
    anchors = {page: anchors_of(text) for page, text in texts.items()}
    count, faults = 0, []
    for page, text in texts.items():
        for link in LINK.findall(without_code(text)):
            if re.match(r"[a-z]+:", link):
                continue
            count += 1
            path, _, anchor = link.partition("#")
            to = os.path.normpath(os.path.join(os.path.dirname(page), path)) if path else page
            if not os.path.exists(os.path.join(top, to)):
                faults.append(f"{page}: the link {link} leads to no file")
            elif anchor and anchor not in anchors.get(to, {anchor}):
                faults.append(f"{page}: the link {link} leads to no heading")
    return count, faults
