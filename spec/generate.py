"""Generates of `spec/lsp.json` and `spec/mcp.json` what the packages have of them.

    python3 spec/generate.py            writes the files
    python3 spec/generate.py --check    says which aren't as it would write them; the status is 1 if there are any
"""
from __future__ import annotations

import json
import sys
from pathlib import Path
from typing import Any, Callable, Dict

from generating import names, node_methods, node_specification, python_features, python_model, python_types
from generating import rust_types, typescript

Json = Dict[str, Any]

TOP = Path(__file__).resolve().parent.parent
#: Each file that is generated, of which specification, and by what.
FILES: dict[str, tuple[str, Callable[[Json], str]]] = {
    "bindings/node/lib/lsp/specification.json": ("lsp.json", node_specification.text_of),
    "bindings/node/types/lsp.d.ts": ("lsp.json", typescript.text_of),
    "bindings/node/types/mcp_model.d.ts": ("mcp.json", typescript.text_of_mcp),
    "bindings/node/types/lsp_methods.d.ts": ("lsp.json", node_methods.text_of),
    "bindings/python/bullmyrtle/lsp/_features.py": ("lsp.json", python_features.text_of),
    "bindings/python/bullmyrtle/lsp/_model.py": ("lsp.json", python_model.text_of_lsp),
    "bindings/python/bullmyrtle/lsp/_names.py": ("lsp.json", names.text_of),
    "bindings/python/bullmyrtle/mcp/_model.py": ("mcp.json", python_model.text_of_mcp),
    "bindings/rust/src/lsp.rs": ("lsp.json", rust_types.text_of),
    "bindings/python/bullmyrtle/lsp/types.py": ("lsp.json", python_types.text_of),
}


def stale(is_check: bool) -> list[str]:
    """The files that aren't as they are generated; unless this is a check, they are written."""
    found = []
    for file, (source, made) in FILES.items():
        text = made(json.loads((TOP / "spec" / source).read_text(encoding="utf-8")))
        path = TOP / file
        if not path.exists() or path.read_text(encoding="utf-8") != text:
            found.append(file)
            if not is_check:
                path.write_text(text, encoding="utf-8")
    return found


if __name__ == "__main__":
    is_check = sys.argv[1:] == ["--check"]
    if sys.argv[1:] and not is_check:
        sys.exit(__doc__)
    changed = stale(is_check)
    for it in changed:
        print(it if is_check else f"wrote {it}")
    sys.exit(is_check and bool(changed))
