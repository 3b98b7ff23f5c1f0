"""The site of the pages, made with MkDocs. The pages stay as they are: they are copied to a folder with what they link to, each
at its place in the repository. Why MkDocs: docs/decisions/tests_and_releases.md#pages."""
from __future__ import annotations

import os
import re
import shutil
import subprocess
import tempfile
from html.parser import HTMLParser
from typing import Iterator
from urllib.parse import unquote

from tools import tidying
from tools.repository import TOP, Fault, read_text

# The pages in the order of the navigation; what isn't named here is below the last heading.
NAVIGATION: dict[str, list[str]] = {
    "Start": ["README.md", "docs/editors.md", "docs/hosts.md", "docs/platforms.md", "SECURITY.md"],
    "Examine and judge": ["docs/examining.md", "docs/servers.md", "docs/judge.md"],
    "Servers and clients": ["docs/language_servers.md", "docs/tools_over_http.md", "docs/python.md", "docs/node.md"],
    "The library": ["docs/using_a_connection.md", "docs/embedding.md", "docs/connection.md"],
    "The program": ["docs/commands.md", "docs/methods.md", "docs/protocol.md"],
    "What is proved": ["docs/proofs.md", "docs/promises.md"],
    "More": [],
}
CONFIGURATION = """site_name: Bullmyrtle
docs_dir: pages
site_dir: {folder}
use_directory_urls: false
theme:
  name: mkdocs
  highlightjs: false
  navigation_depth: 2
extra_css: [site.css]
plugins: [search]
markdown_extensions:
  - toc:
      slugify: !!python/name:tools.site.slug
nav:
{navigation}
"""
# (tables and code that are wider than a narrow screen are moved sideways, and the page isn't)
STYLE = """
table { display: block; overflow-x: auto; }
td, th { overflow-wrap: normal; }
code { overflow-wrap: anywhere; }
pre code, table code { overflow-wrap: normal; }
td:nth-child(2) { min-width: 12rem; }
img { max-width: 100%; height: auto; }
"""
# What a browser would save and not show; and the kit looks at all such files below the top.
SHOWN_AS_TEXT = (".rt", ".antt")
LINK = re.compile(r"\]\((?!https?:)([^)\s#]+)(?:#[^)\s]*)?\)|\b(?:src|srcset)=\"([^\"]+)\"")


def slug(text: str, separator: str) -> str:
    """The name by which a heading is linked, as in checks/test_pages.py."""
    return re.sub(r"[^\w\- ]", "", text.strip().lower()).replace(" ", separator)


def pages() -> list[str]:
    return [it for it in tidying.files(".md") if "/node_modules/" not in it]


def linked(page: str) -> Iterator[str]:
    """The files and folders of the repository that a page links to."""
    for found in LINK.findall(re.sub(r"^```.*?^```$", "", read_text(f"{TOP}/{page}"), flags=re.M | re.S)):
        place = os.path.normpath(os.path.join(os.path.dirname(page), found[0] or found[1]))
        if os.path.exists(f"{TOP}/{place}") and not place.startswith(".."):
            yield place


def title(page: str) -> str:
    return read_text(f"{TOP}/{page}").partition("\n")[0].lstrip("# ")


def navigation() -> str:
    """The pages below their headings, as MkDocs reads them."""
    named = [it for group in NAVIGATION.values() for it in group]
    more = [it for it in pages() if it not in named and not it.startswith("bindings/")]
    lines = []
    for heading, group in NAVIGATION.items():
        lines.append(f"  - {heading}:")
        lines += [f"      - {title(it)!r}: {it}" for it in group or more]
    return "\n".join(lines)


def put(place: str, room: str) -> None:
    """Copies a file or a folder's list of files to its place."""
    target = f"{room}/{place}"
    if os.path.isdir(f"{TOP}/{place}"):
        os.makedirs(target, exist_ok=True)
        if not os.path.exists(f"{target}/index.md") and not os.path.exists(f"{TOP}/{place}/README.md"):
            names = [f"- `{it}`" for it in sorted(os.listdir(f"{TOP}/{place}")) if not it.startswith(("out", "__"))]
            with open(f"{target}/index.md", "w", encoding="utf-8") as it:
                it.write("\n".join([f"# {place}", "", *names, ""]))
    else:
        os.makedirs(os.path.dirname(target), exist_ok=True)
        shutil.copyfile(f"{TOP}/{place}", as_text(target))


def as_text(place: str) -> str:
    """The name of a file on the site."""
    return f"{place}.txt" if place.endswith(SHOWN_AS_TEXT) else place


def make(folder: str) -> None:
    with tempfile.TemporaryDirectory(prefix="site-") as room:
        found = pages()
        for place in [*found, *(it for page in found for it in linked(page))]:
            put(place, f"{room}/pages")
        for page in found:
            to_site(f"{room}/pages", page)
        with open(f"{room}/pages/site.css", "w", encoding="ascii") as it:
            it.write(STYLE)
        with open(f"{room}/mkdocs.yml", "w", encoding="utf-8") as it:
            it.write(CONFIGURATION.format(folder=os.path.abspath(folder), navigation=navigation()))
        words = ["mkdocs", "build", "--quiet", "--strict", "--config-file", f"{room}/mkdocs.yml"]
        ended = subprocess.run(
            words, env={**os.environ, "PYTHONPATH": f"{TOP}/bin"}, capture_output=True, text=True, check=False
        )
        if ended.returncode:
            raise Fault(f"mkdocs: {ended.stderr[-3000:]}")
        os.remove(f"{folder}/404.html")  # (its links are those of a server's root)


def to_site(room: str, page: str) -> None:
    """Has the links of a page that lead to folders lead to the page of the folder, and those to sources to their text."""
    folder = os.path.dirname(page)

    def link(found: re.Match[str]) -> str:
        at = os.path.normpath(os.path.join(room, folder, found[1]))
        names = [it for it in ("README.md", "index.md") if os.path.exists(f"{at}/{it}")] if os.path.isdir(at) else []
        return f"]({found[1].rstrip('/')}/{names[0]})" if names else f"]({as_text(found[1])})"

    text = re.sub(r"\]\((?!https?:)([^)\s#]+)\)", link, read_text(f"{room}/{page}"))
    with open(f"{room}/{page}", "w", encoding="utf-8") as it:
        it.write(text)


class Links(HTMLParser):
    """The names that a page of HTML has, and where its links lead."""

    def __init__(self, text: str) -> None:
        super().__init__()
        self.names, self.links = set[str](), list[str]()
        self.feed(text)

    def handle_starttag(self, tag: str, attrs: list[tuple[str, str | None]]) -> None:
        for name, value in attrs:
            if name == "id" and value:
                self.names.add(value)
            elif name in ("href", "src", "srcset") and value and not re.match(r"https?:|data:|mailto:", value):
                self.links.append(value)


def faults(folder: str) -> tuple[int, list[str]]:
    """How many pages a site has, and which of their links lead nowhere. (A page of an example is a file like others.)"""
    found = {}
    for at, _, names in os.walk(folder):
        made = [os.path.join(at, it) for it in names if it.endswith(".html")]
        found.update(
            {it: Links(read_text(it)) for it in made if not os.path.isfile(f"{TOP}/{os.path.relpath(it, folder)}")}
        )
    told = []
    for file, page in found.items():
        for link in page.links:
            place, _, heading = unquote(link).partition("#")
            target = os.path.normpath(os.path.join(os.path.dirname(file), place)) if place else file
            target = os.path.join(target, "index.html") if os.path.isdir(target) else target
            is_there = os.path.exists(target) and (not heading or target not in found or heading in found[target].names)
            if not is_there:
                told.append(f"{os.path.relpath(file, folder)} has {link}, which leads nowhere")
    return len(found), told
