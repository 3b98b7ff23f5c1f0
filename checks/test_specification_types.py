"""What `mypy --strict` and `tsc --strict` say of an example of each method of LSP: nothing of a right one, and of each
wrong member that there is one. The examples are the worked values of `support/worked_values.py`."""
from __future__ import annotations

import json
import re
import shutil
import subprocess
import sys
from pathlib import Path
from typing import Any, Iterator

import pytest

from support import ran
from support.expecting import check, same

sys.path[:0] = [f"{ran.TOP}/spec"]
from generating import python_features  # noqa: E402  (it stands in spec/)
from making import notation  # noqa: E402
from support.worked_values import Values  # noqa: E402

Json = dict[str, Any]

LSP: Json = json.loads(ran.text_of("spec", "lsp.json"))
VALUES = Values(LSP, 1)
PAGE = ran.text_of("docs", "language_servers.md")
HEAD = """from typing import Any, Dict, List, Literal, Optional, Tuple, TypedDict, Union
from bullmyrtle.lsp import LanguageServer, types

server = LanguageServer("all")


class Wrong(TypedDict):
    nosuch: int

"""
WRONG = "  # wrong\n"
#: A dict display in a list, of a type that is one of several structures: mypy takes it for the wrong one.
AMBIGUOUS = {
    ("notebookDocument/didChange", "params"),
    ("textDocument/didChange", "params"),
    ("textDocument/documentSymbol", "result"),
    ("workspace/symbol", "result"),
}


def with_a_wrong_member(value: Any) -> Any:
    """A worked value with a member that its structure hasn't, in the first object of it; None where it has none."""
    if isinstance(value, list):
        inner = with_a_wrong_member(value[0]) if value else None
        return None if inner is None else [inner, *value[1:]]
    return {**value, "nosuch": 1} if isinstance(value, dict) else None


def examples() -> Iterator[tuple[str, str, str, Any]]:
    """Of each method: its name, whether these are params or a result, their type, and a value that fits."""
    for name, it in LSP["methods"].items():
        for key in ("params", "result"):
            if it.get(key, "null") not in ("null", "LSPAny", "LSPAny[]", "LSPAny | null"):
                yield name, key, it[key], VALUES.fitting(notation.read(it[key]), is_full=True)


def python_examples() -> str:
    types, lines = python_features.Qualified(LSP), [HEAD]
    for at, (name, key, text, value) in enumerate(examples()):
        type_ = types.text(text)
        if (name, key) not in AMBIGUOUS:
            lines.append(f"right_{at}: {type_} = {value!r}\n")
        wrong = with_a_wrong_member(value)
        if wrong is not None:
            lines.append(f"wrong_{at}: {type_} = {wrong!r}{WRONG}")
        if key == "params" and LSP["methods"][name]["to"] == "server":
            result = types.text(LSP["methods"][name].get("result", "null"))
            lines.append(f'\n\n@server.feature("{name}")\ndef feature_{at}(')
            lines.append(f"ls: LanguageServer, params: {type_}) -> {result}:\n")
            lines.append(f"    print(params['nosuch']){WRONG}    raise NotImplementedError\n")
            if result not in ("None", "Any"):
                lines.append(f'\n\nserver.feature("{name}")(wrong_result){WRONG}')
    lines.append("\n\ndef wrong_result(ls: LanguageServer, params: Any) -> Wrong:\n    raise NotImplementedError\n")
    return "".join(lines)


def test_python(tmp_path: Path) -> None:
    if shutil.which("mypy") is None:
        pytest.skip("mypy isn't there: no check of LSP's types in Python")
    text = python_examples()
    typed = next(it for it in PAGE.split("```python\n") if it.startswith("# typed.py")).split("```")[0]
    (tmp_path / "all_methods.py").write_text(text)
    (tmp_path / "typed.py").write_text(typed)
    words = ["mypy", "--strict", "--cache-dir", f"{ran.TOP}/out/mypy", "--python-executable", "/usr/bin/python3"]
    ended = subprocess.run(
        [*words, "all_methods.py", "typed.py"],
        cwd=tmp_path,
        env={"MYPYPATH": f"{ran.TOP}/bindings/python", "PATH": "/usr/bin:/bin"},
        capture_output=True,
        text=True,
        check=False,
    )
    found = {int(it) for it in re.findall(r"^all_methods\.py:(\d+): error", ended.stdout, re.M)}
    expected = {at for at, line in enumerate(text.splitlines(), 1) if line.endswith(WRONG.strip())}
    check(len(expected) > 200, f"{len(expected)} wrong ones")
    lines = text.splitlines()
    same([lines[at - 1][:200] for at in sorted(expected - found)], [], "wrong, and not found")
    same([lines[at - 1][:200] for at in sorted(found - expected)], [], f"right, and refused: {ended.stdout[:2000]}")
    same([it for it in ended.stdout.splitlines() if it.startswith("typed.py")], [])


def typescript_examples() -> str:
    sides = {"server": "Server", "client": "Client", "both": "Server"}
    lines = [
        "import type { ServerRequests, ServerNotifications, ClientRequests, ClientNotifications } from './lsp'\n",
        "export const all: unknown[] = []\n",
    ]
    for name, key, _, value in examples():
        it = LSP["methods"][name]
        type_ = f"{sides[it['to']]}{it['kind'].capitalize()}s['{name}']['{key}']"
        lines.append(f"{{ const it: {type_} = {json.dumps(value)}; all.push(it) }}\n")
        # (an interface without members takes any object)
        wrong = with_a_wrong_member(value) if value else None
        if wrong is not None:
            lines.append(f"// @ts-expect-error\n{{ const it: {type_} = {json.dumps(wrong)}; all.push(it) }}\n")
    return "".join(lines)


def test_typescript(tmp_path: Path) -> None:
    if shutil.which("tsc") is None:
        pytest.skip("tsc isn't there: no check of LSP's types in TypeScript")
    text = typescript_examples()
    check(text.count("@ts-expect-error") > 80, f"{text.count('@ts-expect-error')} wrong ones")
    (tmp_path / "all_methods.ts").write_text(text)
    shutil.copy(f"{ran.TOP}/bindings/node/types/lsp.d.ts", tmp_path)
    words = ["tsc", "--strict", "--noEmit", "--target", "es2020", "all_methods.ts"]
    ended = subprocess.run(words, cwd=tmp_path, capture_output=True, text=True, check=False)
    same(ended.stdout, "")
    same(ended.returncode, 0)
