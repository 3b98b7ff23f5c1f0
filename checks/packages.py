#!/usr/bin/env python3
"""The version stands in one place and is the same everywhere; and the packages that bin/package makes: made twice they are the same byte for
byte, and each is installed in an empty folder and used as its users do it, Node's by `require` and by `import`; the Debian packages also in a
bare root where debootstrap may make one, and those for arm64 in a root of Debian's packages for arm64, by qemu. The program is stripped, and has
a build id as the library has."""
import json
import os
import re
import shutil
import subprocess
import sys
import tempfile
from typing import Any, Optional

from support import debian_arm64, hosts, ran
from support.installed import ANSWER, HOST, REQUEST, SERVER

sys.path.insert(0, f"{ran.TOP}/bin")
from tools import extension, library, ports, program  # noqa: E402 (the folder of the commands is on the path only now)
from tools.repository import read_bytes, read_text  # noqa: E402

MIRROR, SUITE = "http://deb.debian.org/debian", "bookworm"
CARGO = """[package]
name = "user"
version = "0.1.0"
edition = "2021"
[dependencies]
bullmyrtle = { path = "CRATE" }
"""
NODE_SERVER = """
const connection = createMessageConnection(process.stdin, process.stdout, undefined, { protocol: 'mcp' })
connection.onRequest('add', (one, other) => one + other)
run(connection)
"""
NODE_MODULES = {
    "first.cjs": "const { createMessageConnection, run } = require('bullmyrtle')",
    "first.mjs": "import { createMessageConnection, run } from 'bullmyrtle'",
}
BROWSER = """import { readFileSync } from 'node:fs'
import { createRequire } from 'node:module'
import { load } from 'bullmyrtle/browser'
const file = createRequire(import.meta.url).resolve('bullmyrtle/bullmyrtle.wasm')
const { Connection, lsp } = await load(readFileSync(file))
if (typeof lsp.createConnection !== 'function') throw new TypeError('no language servers')
const connection = new Connection({ framing: 'lines' })
const text = '{"jsonrpc":"2.0","method":"m","params":[1],"id":1}\\n'
for (const { method, params } of connection.fed(new TextEncoder().encode(text))) console.log(method, params)
process.exit()
"""
# Each name under which a part of the package may be loaded, in both forms.
NODE_NAMES = """const names = ['', '/node', '/node.js', '/testing', '/lsp', '/mcp'].map(it => `bullmyrtle${it}`)
const members = it => Object.keys(it).filter(name => name !== 'default').sort().join()
Promise.all(names.map(it => import(it))).then(all => all.forEach((it, at) => {
  console.log(names[at], members(it).length > 10 && members(it) === members(require(names[at])))
}))
"""
PROJECT = """cmake_minimum_required(VERSION 3.13)
project(host LANGUAGES C CXX)
find_package(bullmyrtle VERSION_ASKED REQUIRED)
foreach(way bullmyrtle static)
  add_executable(host_${way} host.cpp)
  target_compile_features(host_${way} PRIVATE cxx_std_17)
  target_link_libraries(host_${way} PRIVATE bullmyrtle::${way})
endforeach()
"""


def found(file: str, pattern: str) -> Optional[str]:
    match = re.search(pattern, read_text(f"{ran.TOP}/{file}"), re.M)
    return match[1] if match else None


def check_versions(count: ran.Count) -> None:
    version = read_text(f"{ran.TOP}/VERSION").strip()
    count.check("the version has three numbers", bool(re.fullmatch(r"\d+\.\d+\.\d+", version)), version)
    count.same(
        "the program's", found("crates/rpc_tool/src/command_line/commands.rt", r'^\s*version: "([^"]+)"'), version
    )
    count.same(
        "the Python package's", found("bindings/python/bullmyrtle/__init__.py", r'^__version__ = "([^"]+)"'), version
    )
    for it in ("bindings/rust", "bindings/rust/features"):
        count.same(f"that of the crate in {it}", found(f"{it}/Cargo.toml", r'^version = "([^"]+)"'), version)
    count.same("the change log's first", found("CHANGELOG.md", r"^## (?:Unreleased: )?(\d[\d.]*\d)"), version)
    manifest = f"{ran.TOP}/bindings/node/package.json"
    if os.path.isfile(manifest):
        count.same("Node's", json.loads(read_text(manifest))["version"], version)


def run(words: list[str], given: str = "", **more: Any) -> tuple[int, str, str]:
    ended = subprocess.run(words, input=given, capture_output=True, text=True, check=False, **more)
    return ended.returncode, ended.stdout, ended.stderr


def make(count: ran.Count, folder: str) -> bool:
    """Makes the packages; whether they are there."""
    status, output, errors = run([f"{ran.TOP}/bin/package", folder])
    if "isn't of the sources that lie here" in errors:
        print(f"SKIPPED: the packages, since {errors.strip().partition(': ')[2]}")
        return False
    count.same("bin/package", (status, errors), (0, ""))
    return status == 0


def file_in(folder: str, ending: str) -> str:
    return next(f"{folder}/{it}" for it in sorted(os.listdir(folder)) if it.endswith(ending))


def check_same(count: ran.Count, folder: str, room: str) -> None:
    again = f"{room}/again"
    if make(count, again):
        names = sorted(os.listdir(folder))
        count.same("the packages' names", sorted(os.listdir(again)), names)
        for it in names:
            count.check(
                f"{it}, made twice", read_bytes(f"{folder}/{it}") == read_bytes(f"{again}/{it}"), "the bytes differ"
            )
        count.same("sha256sum -c", run(["sha256sum", "-c", "--quiet", "SHA256SUMS"], cwd=folder)[0], 0)


def check_wheel(count: ran.Count, folder: str, room: str) -> None:
    status, _, errors = run(
        [
            sys.executable,
            "-m",
            "pip",
            "install",
            "--no-index",
            "--target",
            f"{room}/python",
            file_in(folder, "linux_1_1_x86_64.whl"),
        ]
    )
    count.check("the wheel is installed", status == 0, errors)
    with open(f"{room}/first.py", "w", encoding="utf-8") as it:
        it.write(SERVER)
    env = {"PYTHONPATH": f"{room}/python", "PATH": os.environ["PATH"]}
    count.same("a server over it", run([sys.executable, "first.py"], REQUEST, cwd=room, env=env)[:2], (0, ANSWER))


# What Python's wheel for each platform is named for, by pip's words for a platform, and what its extension is called.
WHEELS = {
    "linux-x64": ("manylinux2014_x86_64", "musllinux_1_1_x86_64"),
    "linux-arm64": ("manylinux2014_aarch64", "musllinux_1_1_aarch64"),
    "darwin-x64": ("macosx_11_0_x86_64",),
    "darwin-arm64": ("macosx_11_0_arm64",),
    "win32-x64": ("win_amd64",),
}


def check_wheels(count: ran.Count, folder: str, room: str) -> None:
    """Each platform whose files lie in out/ports has a wheel. pip takes it for the platform that it is named for, for the oldest Python and a
    newer one, and for no other; and it has the same files as that for linux-x64 but for the extension, which is that of the platform.
    """
    whole = ports.whole()
    for it in sorted({*WHEELS} - {*whole, "linux-x64"}):
        print(f"SKIPPED: Python's wheel for {it}, whose extension bin/build-ports hasn't made")
    made = {it: WHEELS[it] for it in WHEELS if it in (*whole, "linux-x64")}
    found = {it for it in os.listdir(folder) if it.endswith(".whl")}
    version = read_text(f"{ran.TOP}/VERSION").strip()
    names = {it: f"bullmyrtle-{version}-cp38-abi3-{'.'.join(tags)}.whl" for it, tags in made.items()}
    count.same("the wheels", found, {*names.values()})
    own = installed_for(f"{folder}/{names['linux-x64']}", "manylinux2014_x86_64", "3.8", f"{room}/wheels/own")
    for platform, tags in made.items():
        wheel, file = f"{folder}/{names[platform]}", extension.FILES[platform]
        at = library.RELEASED if platform == "linux-x64" else f"{ports.BUILT}/{platform}"
        wanted = {**own, file: read_bytes(f"{at}/{file}")}
        if file != extension.EXTENSION:
            del wanted[extension.EXTENSION]
        for python, tag in (("3.8", tags[0]), ("3.13", tags[-1])):
            got = installed_for(wheel, tag, python, f"{room}/wheels/{tag}-{python}")
            wrong = [it for it in sorted({*got, *wanted}) if got.get(it) != wanted.get(it)]
            count.same(f"{names[platform]} for {tag} and Python {python}: files that are missing or differ", wrong, [])
        other = next(it for name, (it, *_) in WHEELS.items() if name != platform)
        got = installed_for(wheel, other, "3.13", f"{room}/wheels/{platform}-for-{other}")
        count.same(f"{names[platform]} isn't for {other}", got, {})


def installed_for(wheel: str, tag: str, python: str, room: str) -> dict[str, bytes]:
    """The package's files by their names, as pip installs a wheel for another platform and another Python; none where it refuses to."""
    of = f"--no-index --no-deps --no-compile --only-binary=:all: --platform {tag} --python-version {python}"
    words = ["-m", "pip", "--disable-pip-version-check", "install", *of.split(), "--target", room, wheel]
    status, _, _ = run([sys.executable, *words])
    top = f"{room}/bullmyrtle"
    files = [f"{at}/{it}" for at, _, names in os.walk(top) for it in names] if status == 0 else []
    return {os.path.relpath(it, top): read_bytes(it) for it in files}


def installed_node(folder: str, user: str) -> str:
    """Installs Node's package in a folder by npm, or as npm would where it isn't there; gives why that fails."""
    archive = file_in(folder, ".tgz")
    os.makedirs(f"{user}/node_modules/bullmyrtle")
    if shutil.which("npm") is None:
        words = ["tar", "-xzf", archive, "-C", f"{user}/node_modules/bullmyrtle", "--strip-components=1"]
    else:
        os.rmdir(f"{user}/node_modules/bullmyrtle")
        words = ["npm", "install", "--offline", "--no-audit", "--no-fund", "--no-update-notifier", archive]
    env = {"PATH": os.environ["PATH"], "HOME": user, "npm_config_cache": f"{user}/cache"}
    status, output, errors = run(words, cwd=user, env=env)
    return "" if status == 0 else output + errors


def check_node(count: ran.Count, folder: str, room: str) -> None:
    """The addon is in it: nothing of the repository is at hand."""
    if ran.lacks("node", "Node's package isn't installed"):
        return
    user = f"{room}/user of node"
    why = installed_node(folder, user)
    count.check("Node's package is installed", not why, why)
    env = {"PATH": os.environ["PATH"]}
    for name, first in NODE_MODULES.items():
        with open(f"{user}/{name}", "w", encoding="utf-8") as it:
            it.write(first + NODE_SERVER)
        count.same(f"a server over it, {name}", run(["node", name], REQUEST, cwd=user, env=env), (0, ANSWER, ""))
    told = "".join(f"bullmyrtle{it} true\n" for it in ("", "/node", "/node.js", "/testing", "/lsp", "/mcp"))
    count.same("each of its names, in both forms", run(["node", "-e", NODE_NAMES], cwd=user, env=env), (0, told, ""))
    check_wasm(count, user, env)


def check_wasm(count: ran.Count, user: str, env: dict[str, str]) -> None:
    """Node's package where it has no addon, and the part for browsers, by Node.js."""
    built = f"{user}/node_modules/bullmyrtle/prebuilt"
    if not os.path.isfile(f"{built}/bullmyrtle.wasm"):
        print("SKIPPED: WebAssembly in Node's package, which bin/build-ports hasn't made")
        return
    with open(f"{user}/browser.mjs", "w", encoding="utf-8") as it:
        it.write(BROWSER)
    count.same("the part for browsers", run(["node", "browser.mjs"], cwd=user, env=env), (0, "m [1]\n", ""))
    for name in os.listdir(built):
        if name.endswith(".node"):
            os.remove(f"{built}/{name}")
    first = next(iter(NODE_MODULES))
    count.same("a server without an addon", run(["node", first], REQUEST, cwd=user, env=env), (0, ANSWER, ""))


def check_crate(count: ran.Count, folder: str, room: str) -> None:
    if ran.lacks("cargo", "the crate isn't built"):
        return
    run(["tar", "-xzf", file_in(folder, ".crate"), "-C", room])
    top = next(
        f"{room}/{it}"
        for it in os.listdir(room)
        if it.startswith("bullmyrtle-") and os.path.isfile(f"{room}/{it}/Cargo.toml")
    )
    kept = {key: it for key, it in os.environ.items() if key != "BULLMYRTLE_LIB_DIR"}
    status, _, errors = run(
        ["cargo", "build", "--offline", "--examples", "--target-dir", f"{room}/target"], cwd=top, env=kept
    )
    count.check("the crate is built outside of the repository", status == 0, errors[-2000:])
    check_use_of_crate(count, top, room, kept)


def check_use_of_crate(count: ran.Count, crate: str, room: str, env: dict[str, str]) -> None:
    """A program of another project: the example of the crate's page."""
    user = f"{room}/user of rust"
    os.makedirs(f"{user}/src")
    shutil.copy(f"{crate}/examples/echo.rs", f"{user}/src/main.rs")
    with open(f"{user}/Cargo.toml", "w", encoding="utf-8") as it:
        it.write(CARGO.replace("CRATE", crate))
    words = ["cargo", "run", "-q", "--offline", "--target-dir", f"{room}/target"]
    asked, echoed = REQUEST.replace("add", "echo"), ANSWER.replace("3", "[1,2]")
    count.same("a program of another project over it", run(words, asked, cwd=user, env=env), (0, echoed, ""))


def check_archive(count: ran.Count, folder: str, room: str) -> None:
    run(["tar", "-xzf", file_in(folder, "linux-x86_64.tar.gz"), "-C", room])
    top = next(f"{room}/{it}" for it in os.listdir(room) if it.endswith("linux-x86_64"))
    count.same(
        "the archive's program",
        run([f"{top}/bin/rpc_tool", "--version"])[:2],
        (0, f"rpc_tool {read_text(f'{ran.TOP}/VERSION')}"),
    )
    with open(f"{room}/host.c", "w", encoding="utf-8") as it:
        it.write(HOST)
    words = [
        "cc",
        f"-I{top}/include",
        f"{room}/host.c",
        "-o",
        f"{room}/host",
        f"-L{top}/lib",
        "-lbullmyrtle",
        f"-Wl,-rpath,{top}/lib",
    ]
    count.same("a program in C links with it", run(words), (0, "", ""))
    count.same("and runs", run([f"{room}/host"])[:2], (0, "1\n"))
    check_pkg_config(count, top, room)
    check_cmake(count, top, room)


def check_pkg_config(count: ran.Count, top: str, room: str) -> None:
    """The archive may stand anywhere."""
    if ran.lacks("pkg-config", "no program is linked by the archive's bullmyrtle.pc"):
        return
    env = {**os.environ, "PKG_CONFIG_PATH": f"{top}/lib/pkgconfig"}
    status, words, errors = run(["pkg-config", "--cflags", "--libs", "bullmyrtle"], env=env)
    made = [f"{room}/host.c", "-o", f"{room}/by-pkg-config", f"-Wl,-rpath,{top}/lib", *words.split()]
    count.same("pkg-config knows the archive", (status, errors), (0, ""))
    count.same("a program linked by it", run(["cc", *made]), (0, "", ""))
    count.same("and it runs", run([f"{room}/by-pkg-config"])[:2], (0, "1\n"))


def check_cmake(count: ran.Count, top: str, room: str) -> None:
    """find_package finds it, and the example in C++ is built by it outside of the repository, in both ways; other versions aren't found."""
    if ran.lacks("cmake", "no program is built by find_package") or ran.lacks("c++", "no program in C++ is built"):
        return
    at = f"{room}/cmake"
    os.makedirs(at)
    shutil.copy(f"{ran.TOP}/examples/c/host.cpp", at)

    def configured(version: str) -> tuple[int, str, str]:
        with open(f"{at}/CMakeLists.txt", "w", encoding="utf-8") as it:
            it.write(PROJECT.replace("VERSION_ASKED", version))
        shutil.rmtree(f"{at}/made", ignore_errors=True)
        return run(["cmake", "-S", at, "-B", f"{at}/made", f"-DCMAKE_PREFIX_PATH={top}"])

    major, minor, _ = map(int, read_text(f"{ran.TOP}/VERSION").split("."))
    for version in (f"{major}.{minor + 1}", f"{major + 1}.0"):
        got = configured(version)
        count.check(f"find_package doesn't find {version}", got[0] != 0 and "bullmyrtle" in got[2], f"{got}"[-900:])
    got = configured(f"{major}.{minor}")
    count.check("find_package finds it", got[0] == 0, f"{got}"[-900:])
    got = run(["cmake", "--build", f"{at}/made"])
    count.check("the example in C++ is built by it", got[0] == 0, f"{got}"[-900:])
    for way in ("bullmyrtle", "static"):
        got = run([f"{at}/made/host_{way}"], hosts.HOST[0].decode())
        count.same(f"a host in C++ answers, by bullmyrtle::{way}", got, (0, hosts.HOST[1].decode(), ""))


def check_symbols(count: ran.Count) -> None:
    """The program has none left, and both have a sum of what was linked, by which a dump of either is told."""
    if ran.lacks("readelf", "no look at the symbols and the build ids"):
        return
    held = read_bytes(program.RELEASED)
    count.check("the program is stripped", len(program.stripped(held)) == len(held), f"{len(held):,} bytes")
    for name in ("rpc_tool", "libbullmyrtle.so.1"):
        notes = run(["readelf", "-n", f"{ran.TOP}/release/{name}"])[1]
        count.check(f"{name} has a build id", re.search(r"Build ID: [0-9a-f]{40}$", notes, re.M), notes)


def check_bill(count: ran.Count, folder: str) -> None:
    bill = json.loads(read_text(file_in(folder, ".spdx.json")))
    own = {it["name"]: it for it in bill["packages"] if it["SPDXID"].startswith("SPDXRef-own")}
    made = ["_bullmyrtle.abi3.so", "bullmyrtle-linux-x64.node", "libbullmyrtle.a", "libbullmyrtle.so.1", "rpc_tool"]
    count.same("what the bill is of", sorted(own), made)
    for name, about in own.items():
        told = run(["sha256sum", f"{ran.TOP}/release/{name}"])[1].split()[0]
        count.same(f"the sum of {name}", about["checksums"][0]["checksumValue"], told)
    known = {it["SPDXID"] for it in bill["packages"]} | {"SPDXRef-DOCUMENT"}
    ends = {it[end] for it in bill["relationships"] for end in ("spdxElementId", "relatedSpdxElement")}
    count.same("relations between what isn't there", sorted(ends - known), [])


def check_unpacked_debian(count: ran.Count, folder: str, room: str) -> None:
    """Unpacked into an empty folder, which takes no root, and used from there."""
    if ran.lacks("dpkg-deb", "the Debian packages aren't unpacked"):
        return
    root = f"{room}/unpacked"
    for it in sorted(os.listdir(folder)):
        if it.endswith("_amd64.deb"):
            count.same(f"{it} is unpacked", run(["dpkg-deb", "-x", f"{folder}/{it}", root]), (0, "", ""))
    version = read_text(f"{ran.TOP}/VERSION")
    count.same("its program", run([f"{root}/usr/bin/rpc_tool", "--version"]), (0, f"rpc_tool {version}", ""))
    if ran.lacks("pkg-config", "no program is linked with the unpacked library"):
        return
    at = f"{root}/usr/lib/x86_64-linux-gnu"
    env = {**os.environ, "PKG_CONFIG_SYSROOT_DIR": root, "PKG_CONFIG_LIBDIR": f"{at}/pkgconfig"}
    flags = run(["pkg-config", "--cflags", "--libs", "bullmyrtle"], env=env)[1].split()
    with open(f"{room}/unpacked.c", "w", encoding="utf-8") as host:
        host.write(HOST)
    words = ["cc", f"{room}/unpacked.c", "-o", f"{room}/linked", *flags, f"-Wl,-rpath,{at}"]
    count.same("a program is linked with it by pkg-config", run(words), (0, "", ""))
    count.same("and runs with it", run([f"{room}/linked"]), (0, "1\n", ""))


def check_debian(count: ran.Count, folder: str, room: str) -> None:
    """Installed and used in a bare root."""
    if os.geteuid() or shutil.which("debootstrap") is None:
        print("SKIPPED: the Debian packages in a bare root, which takes root and debootstrap")
        return
    root = f"{room}/root"
    words = ["debootstrap", "--variant=minbase", "--include=gcc,libc6-dev,pkg-config,python3", SUITE, root, MIRROR]
    status, output, _ = run(words)
    if status:
        print(
            f"SKIPPED: the Debian packages in a bare root, since debootstrap failed: {output.strip().splitlines()[-1:]}"
        )
        return
    for it in os.listdir(folder):
        if it.endswith("_amd64.deb"):
            shutil.copy(f"{folder}/{it}", f"{root}/root/{it}")
    with open(f"{root}/root/host.c", "w", encoding="utf-8") as host:
        host.write(HOST)

    def inside(script: str) -> tuple[int, str, str]:
        return run(["chroot", root, "sh", "-c", f"cd /root && {script}"])

    count.same("dpkg -i", inside("dpkg -i *.deb")[0], 0)
    count.same("dpkg --audit", inside("dpkg --audit")[:2], (0, ""))
    count.same("the program", inside("rpc_tool --version")[:2], (0, f"rpc_tool {read_text(f'{ran.TOP}/VERSION')}"))
    count.same(
        "a program linked by pkg-config",
        inside("cc host.c -o host $(pkg-config --cflags --libs bullmyrtle) && ./host")[:2],
        (0, "1\n"),
    )
    count.same(
        "the same, linked statically", inside("cc host.c -o still -l:libbullmyrtle.a && ./still")[:2], (0, "1\n")
    )
    examined = inside("bullmyrtle-examine --only 'a session begins' --rules jsonrpc -- rpc_tool serve")
    count.same("the examiner", examined[0], 0)
    count.same("the judge", inside("bullmyrtle-judge --rules jsonrpc -- rpc_tool serve < /dev/null")[0], 0)
    count.same("the command for tool servers", inside("bullmyrtle-mcp --help > /dev/null")[0], 0)
    count.same(
        "all is gone again",
        inside(
            "dpkg -r python3-bullmyrtle libbullmyrtle-dev libbullmyrtle1 rpc-tool && ! ls /usr/include/bullmyrtle.h"
        )[0],
        0,
    )


def main() -> None:
    count = ran.Count()
    check_versions(count)
    with tempfile.TemporaryDirectory(prefix="packages-") as room:
        folder = f"{room}/packages"
        if make(count, folder):
            check_same(count, folder, room)
            check_symbols(count)
            check_wheel(count, folder, room)
            check_wheels(count, folder, room)
            check_node(count, folder, room)
            check_crate(count, folder, room)
            check_archive(count, folder, room)
            check_bill(count, folder)
            check_unpacked_debian(count, folder, room)
            check_debian(count, folder, room)
            debian_arm64.check(count, folder, f"{room}/arm64")
    count.end()


if __name__ == "__main__":
    main()
