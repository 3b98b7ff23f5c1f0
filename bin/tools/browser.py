"""The package for a browser: one module of JavaScript, made of the modules of bindings/node that a browser takes. Each is a function in it
that is called when the module is asked for; bullmyrtle.wasm lies beside it."""
from __future__ import annotations

import os
import re

from tools import porting, ports
from tools.repository import TOP, Fault, read_bytes, read_text

NODE = f"{TOP}/bindings/node"
MADE = "browser.mjs"
# The modules that all others are asked for by.
FIRST = ["stand_ins", "loading", "index"]
ASKED = re.compile(r"require\('(\.[^']*)'\)")
NAMED = re.compile(r"require\('([^']*)'\)")
# What is there beside the modules: Node.js's addon, in whose place is the one that load() makes.
GIVEN = {"load"}
HEAD = """// The package bullmyrtle for browsers: made of bindings/node by bin/build-browser.
const modules = {}
"""
OVER = """const made = {}
function required(name) {
  if (!(name in made)) {
    const module = { exports: {} }
    modules[name](module, required)
    made[name] = module.exports
  }
  return made[name]
}
const standIns = required('stand_ins')
const { Buffer, setImmediate, process } = standIns
for (const name of ['node:util', 'node:net', 'node:fs', 'node:crypto']) made[name] = standIns[name]

function packageOver(addon) {
  made.load = { addon }
  return required('index')
}

export const load = required('loading').loading(packageOver, new URL('./bullmyrtle.wasm', import.meta.url))
"""


def file_of(name: str) -> str:
    """A module's file. What browser/ has stands in the place of what lib/ has."""
    files = [f"{NODE}/{it}/{name}{kind}" for kind in (".js", "") for it in ("browser", "lib")]
    return next(it for it in files if os.path.isfile(it))


def name_asked(asking: str, asked: str) -> str:
    """The name of a module by which one of this name asks for it: its place in lib/ or in browser/."""
    place = os.path.normpath(os.path.join("lib", os.path.dirname(asking), asked))
    return re.sub(r"^(\.\./)?(lib|browser)/", "", os.path.normpath(place))


def source(name: str) -> str:
    """A module's source, which asks for others by their names."""
    text = read_text(file_of(name))
    if name.endswith(".json"):
        return f"module.exports = {text}"
    return ASKED.sub(lambda found: f"require('{name_asked(name, found[1])}')", text.removeprefix("'use strict'\n"))


def sources() -> dict[str, str]:
    """All modules, by name."""
    found: dict[str, str] = {}
    waiting = [*FIRST]
    while waiting:
        name = waiting.pop()
        if name in found:
            continue
        found[name] = source(name)
        waiting += [it for it in NAMED.findall(found[name]) if it not in GIVEN and not it.startswith("node:")]
    return found


def bundle() -> str:
    parts = [HEAD]
    for name, body in sorted(sources().items()):
        parts.append(f"modules[{name!r}] = (module, require) => {{\n{body}}}\n")
    return "".join([*parts, OVER])


def files() -> dict[str, bytes]:
    """The module, and what it loads. This bin/build-ports has to have made."""
    if "wasm32" not in ports.whole():
        raise Fault(f"out/ports has no {porting.WASM_FILE} with the sum in release/: bin/build-ports wasm32 makes it")
    wasm = read_bytes(f"{ports.BUILT}/wasm32/{porting.WASM_FILE}")
    return {MADE: bundle().encode(), porting.WASM_FILE: wasm}
