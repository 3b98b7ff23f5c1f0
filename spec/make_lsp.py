"""Makes `spec/lsp.json` of what Debian's packages say of LSP. It is run by hand; nothing else reads these packages.

    python3 spec/make_lsp.py FOLDER

FOLDER holds the unpacked packages. In an empty one these commands fetch and unpack them; the first line is a list of
sources outside of the system's own, since the source package needs a line `deb-src`:

    echo 'deb-src http://deb.debian.org/debian bookworm main' > sources.list && mkdir lists
    apt-get -o Dir::Etc::sourcelist=$PWD/sources.list -o Dir::Etc::sourceparts=- -o Dir::State::lists=$PWD/lists update
    apt-get -o Dir::Etc::sourcelist=$PWD/sources.list -o Dir::Etc::sourceparts=- -o Dir::State::lists=$PWD/lists \\
        source --download-only golang-golang-x-tools
    apt-get download qt6-languageserver-private-dev elpa-lsp-mode elpa-eglot
    tar xzf golang-golang-x-tools_*.orig.tar.gz && for it in *.deb; do dpkg-deb -x $it .; done

Only facts are taken over: names of methods, structures, members and types, and which members may be absent. No text is.
"""
from __future__ import annotations

import sys
from pathlib import Path
from typing import Any

from making import by_hand, emacs, gopls, qt, writing
from making.joined import Joining

Json = dict[str, Any]

HERE = Path(__file__).resolve().parent
ABOUT = {
    "what": "The methods, structures and enumerations of LSP 3.17, in our own form. spec/README.md describes it.",
    "made by": "spec/make_lsp.py",
    "gopls": "Debian's golang-golang-x-tools 0.5.0+ds-1: tsprotocol.go, tsserver.go and tsclient.go, made of 3.17.0",
    "qt": "Debian's qt6-languageserver-private-dev 6.4.2-2: qlanguageserverspec_p.h and its neighbours, made of 3.16",
    "lsp-mode": "Debian's elpa-lsp-mode 8.0.0-5: lsp-protocol.el",
    "eglot": "Debian's elpa-eglot 1.9-2: eglot.el",
    "hand": "written by hand from the text of 3.17 (spec/making/by_hand.py), where no source has it",
}


def _one(folder: Path, name: str) -> Path:
    found = sorted(folder.rglob(name))
    if len(found) != 1:
        sys.exit(f"{folder} has {len(found)} files {name}, and has to have one: see the head of spec/make_lsp.py")
    return found[0]


def _structures(joining: Joining) -> Json:
    made: Json = {}
    for name, it in sorted(joining.structures.items()):
        members = {
            f"{member}?" if about.is_optional else member: {"type": about.type, "by": about.by}
            for member, about in it.members.items()
        }
        made[name] = {**({"extends": it.extends} if it.extends else {}), "members": members}
    return made


def main(folder: Path) -> None:
    """Reads the packages and writes the file."""
    tables = [
        emacs.read_lsp_mode(_one(folder, "lsp-protocol.el")),
        emacs.read_eglot(_one(folder, "eglot.el")),
    ]
    theirs = gopls.read(_one(folder, "tsprotocol.go").parent)
    joining = Joining(theirs, qt.read(_one(folder, "qlanguageserverspectypes_p.h").parent), tables)
    joining.join_structures()
    joining.join_methods()
    enumerations = joining.enumerations()
    specification = {
        "about": ABOUT,
        "methods": joining.methods,
        "structures": _structures(joining),
        "unions": by_hand.UNIONS,
        "enumerations": enumerations,
        "differences": joining.differences,
    }
    (HERE / "lsp.json").write_text(writing.text_of(specification), encoding="utf-8")
    counts = {name: len(it) for name, it in specification.items() if name != "about"}
    print(", ".join(f"{count} {name}" for name, count in counts.items()))


if __name__ == "__main__":
    if len(sys.argv) != 2:
        sys.exit(__doc__)
    main(Path(sys.argv[1]))
