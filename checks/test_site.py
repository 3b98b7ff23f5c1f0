"""The site that bin/site makes of the pages has each page and a search, and its links lead somewhere; and one that doesn't is
seen."""
from pathlib import Path

import pytest

from support import needing, ran
from support.expecting import check, same
from tools import site  # (it stands in bin/)


@pytest.fixture(scope="module")
def made(tmp_path_factory: pytest.TempPathFactory) -> Path:
    needing.tool("mkdocs", "the site of the pages")
    folder = tmp_path_factory.mktemp("site")
    status, said = ran.told_by([f"{ran.TOP}/bin/site", str(folder)], 300)
    check(status == 0 and said.decode().endswith(" passed, 0 failed\n"), said.decode())
    return folder


def test_pages(made: Path) -> None:
    """Each page is there, below its heading or in the list of the rest."""
    wanted = [it.replace("README.md", "index.md").removesuffix("md") + "html" for it in site.pages()]
    same([it for it in wanted if not (made / it).is_file()], [])


def test_search(made: Path) -> None:
    check("progress-token" in (made / "search" / "search_index.json").read_text(), "what README shows is found")


def test_link_that_leads_nowhere(tmp_path: Path) -> None:
    (tmp_path / "there.html").write_text('<h1 id="it">It</h1>')
    links = ("there.html", "there.html#it", "there.html#that", "nowhere.html", "https://example.org/", "#here")
    (tmp_path / "index.html").write_text("".join(f'<a href="{it}">it</a>' for it in links))
    count, found = site.faults(str(tmp_path))
    same((count, [it.split(" ")[2] for it in found]), (2, ["there.html#that,", "nowhere.html,", "#here,"]))
