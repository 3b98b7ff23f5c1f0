"""The packages that languages have their own form for: Python's wheel, Rust's crate, and Node's."""
import json
import os
import subprocess
import sys
import tempfile

from tools import addon, browser, extension, ports
from tools.archives import File, tar_gz
from tools.packages.parts import HEADER, RELEASED, STATIC, file_of, released, tracked, version
from tools.repository import TOP, Fault, read_bytes

NODE = f"{TOP}/bindings/node"


def wheels() -> dict[str, bytes]:
    """Python's wheels: with the released extension, and with each that bin/build-ports has made."""
    made = wheel({})
    for it in ports.whole():
        if it in extension.FILES:
            made.update(wheel({"BULLMYRTLE_EXTENSION": f"{ports.BUILT}/{it}/{extension.FILES[it]}"}))
    return made


def wheel(named: dict[str, str]) -> dict[str, bytes]:
    """Python's wheel, as its own build makes it, with an extension that is named, or else the released one, and no other."""
    code = "import sys, wheels; print(wheels.build_wheel(sys.argv[1]))"
    kept = {key: it for key, it in os.environ.items() if key != "BULLMYRTLE_EXTENSION"}
    env = {**kept, **named, "PYTHONPATH": f"{TOP}/bindings/python/build_backend", "PYTHONDONTWRITEBYTECODE": "1"}
    with tempfile.TemporaryDirectory() as room:
        ended = subprocess.run([sys.executable, "-c", code, room], env=env, capture_output=True, text=True, check=False)
        if ended.returncode:
            raise Fault(f"the wheel can't be built: {ended.stderr.strip()}")
        name = ended.stdout.split()[-1]
        return {name: read_bytes(f"{room}/{name}")}


def crate() -> dict[str, bytes]:
    """Rust's crate, with the static library and its header in it, so that it builds outside of the repository."""
    top = f"bullmyrtle-{version()}"
    files = [file_of(f"bindings/rust/{it}", f"{top}/{it}") for it in tracked("bindings/rust")]
    files += [File(f"{top}/release/{it}", released(it)) for it in (STATIC, HEADER)]
    return {f"{top}.crate": tar_gz(files)}


def addons() -> list[File]:
    """The addons that Node's package has: that of linux-x64, and those that bin/build-ports has made; and the same in WebAssembly, with what
    loads it in a browser."""
    made = ports.whole()
    names = {f"{RELEASED}/{addon.ADDON}": addon.ADDON}
    names.update({f"{ports.BUILT}/{it}/bullmyrtle-{it}.node": f"bullmyrtle-{it}.node" for it in made if it != "wasm32"})
    found = [File(f"package/prebuilt/{name}", read_bytes(file), 0o755) for file, name in names.items()]
    of_browser = browser.files() if "wasm32" in made else {}
    return [*found, *(File(f"package/prebuilt/{name}", data) for name, data in of_browser.items())]


def node() -> dict[str, bytes]:
    """Node's package, with the addons in it, as `npm pack` puts them there. Why it is one and not one for each platform:
    docs/decisions/library_and_bindings.md#nodejs-bindingsnode."""
    manifest = json.loads(read_bytes(f"{NODE}/package.json"))
    wanted = ["package.json", "README.md", *manifest["files"]]

    def is_wanted(name: str) -> bool:
        return any(name == it or name.startswith(f"{it.rstrip('/')}/") for it in wanted)

    files = [file_of(f"bindings/node/{it}", f"package/{it}") for it in tracked("bindings/node") if is_wanted(it)]
    return {f"bullmyrtle-{manifest['version']}.tgz": tar_gz([*files, *addons()])}
