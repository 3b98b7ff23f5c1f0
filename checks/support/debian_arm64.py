"""The Debian packages for arm64, tried by checks/packages.py: dpkg installs them in a root that has Debian's packages
for arm64 and no others, and what they brought runs in it under qemu."""
import os
import shutil
import stat
from typing import NamedTuple

from support import arm64, ran, rows
from support.c_programs import said
from support.installed import ANSWER, HOST, REQUEST, SERVER

from tools import foreign, ports, static_program  # (ran has put bin/ on the path)
from tools.repository import Fault, read_bytes, read_text

PROGRAM = "rpc-tool"
LIBRARIES = ["libbullmyrtle-dev", "libbullmyrtle1"]
PACKAGES = [*LIBRARIES, "python3-bullmyrtle", PROGRAM]
# What Debian's own packages in the root are, with all that they stand on.
OF_DEBIAN = ["python3", "libc6-dev"]
QEMU = "qemu-aarch64-static"
NEEDED = {**arm64.NEEDED, "dpkg": "dpkg", "pkg-config": "pkg-config"}
LIBRARY = "usr/lib/aarch64-linux-gnu"
# (as long as it may take under qemu on a busy machine)
PATIENCE = "60"


class Root(NamedTuple):
    """A root in which the dpkg of this machine installs packages, and qemu runs what is in them."""

    folder: str

    def dpkg(self, *words: str) -> tuple[int, bytes, bytes]:
        return said(["dpkg", f"--root={self.folder}", *words])

    def inside(self, *words: str, given: bytes = b"") -> tuple[int, bytes, bytes]:
        return said(["chroot", self.folder, f"/{QEMU}", *words], given)

    def with_proc(self, *words: str, given: bytes = b"") -> tuple[int, bytes, bytes]:
        """The same with /proc, which nothing but this sees, and which goes with it."""
        inside = ["sh", "-c", 'mount -t proc proc "$0/proc" && exec chroot "$0" "$@"', self.folder, f"/{QEMU}"]
        return said(["unshare", "--mount", *inside, *words], given)

    def write(self, name: str, data: bytes) -> None:
        os.makedirs(os.path.dirname(f"{self.folder}/{name}"), exist_ok=True)
        with open(f"{self.folder}/{name}", "wb") as it:
            it.write(data)


def made(folder: str, packages: list[str]) -> Root:
    """A root with these packages in it, which dpkg takes for installed, and qemu."""
    root = Root(folder)
    os.makedirs(folder)
    foreign.unpack(packages, folder)
    about = (said(["dpkg-deb", "-f", it])[1] for it in packages)
    root.write("var/lib/dpkg/status", b"".join(b"%sStatus: install ok installed\n\n" % it for it in about))
    for it in ("var/lib/dpkg/info", "var/lib/dpkg/updates", "var/lib/dpkg/triggers", "dev", "proc", "tmp"):
        os.makedirs(f"{folder}/{it}", exist_ok=True)
    root.dpkg("--add-architecture", "arm64")
    os.mknod(f"{folder}/dev/null", 0o666 | stat.S_IFCHR, os.makedev(1, 3))
    shutil.copy(shutil.which(QEMU) or "", f"{folder}/{QEMU}")
    return root


def check_both(count: ran.Count, folder: str, room: str) -> None:
    """The packages of the library for both processors may be installed side by side: a file that is in both is the
    same."""
    if ran.lacks("dpkg-deb", "the Debian packages for arm64 aren't compared with those for amd64"):
        return
    found: dict[str, dict[str, bytes]] = {}
    for processor in ("amd64", "arm64"):
        at = f"{room}/{processor}"
        os.makedirs(at)
        foreign.unpack([f"{folder}/{it}" for it in os.listdir(folder) if is_of(it, processor)], at)
        files = [os.path.join(top, it) for top, _, names in os.walk(at) for it in names]
        found[processor] = {os.path.relpath(it, at): read_bytes(it) for it in files}
    both = {*found["amd64"]} & {*found["arm64"]}
    differing = sorted(it for it in both if found["amd64"][it] != found["arm64"][it])
    count.same("files of the library's packages that differ by processor", differing, [])
    count.check("the header is in both", "usr/include/bullmyrtle.h" in both, sorted(both))
    alone = {it: {name for name in found[it] if name not in both} for it in found}
    turned = {it.replace("aarch64-linux-gnu", "x86_64-linux-gnu") for it in alone["arm64"]}
    count.same("files that are for one processor", turned, alone["amd64"])


def is_of(file: str, processor: str) -> bool:
    """Whether a file is a package of the library for a processor."""
    return file.startswith(tuple(f"{it}_" for it in LIBRARIES)) and file.endswith(f"_{processor}.deb")


def check_program(count: ran.Count, root: Root, where: str) -> None:
    """The program says its version, and answers."""
    version = f"rpc_tool {read_text(f'{ran.TOP}/VERSION')}"
    count.same(f"rpc_tool {where}", root.inside("/usr/bin/rpc_tool", "--version"), (0, version.encode(), b""))
    root.write("table.toml", rows.METHODS.encode())
    asked = rows.frames('{"jsonrpc":"2.0","method":"add","params":[2,3],"id":7}')
    got = root.inside("/usr/bin/rpc_tool", "serve", "--table", "/table.toml", given=asked)
    count.same(f"rpc_tool {where} answers", got, (0, rows.frames(rows.answered("5")), b""))


def check_alone(count: ran.Count, files: dict[str, str], room: str) -> None:
    """The program's package needs no other one; that of the library says what it needs."""
    root = made(f"{room}/empty", [])
    got = root.dpkg("-i", files[PROGRAM])
    count.same("dpkg -i, where there is no other package", got[0], 0)
    check_program(count, root, "without another package")
    got = root.dpkg("-i", files["libbullmyrtle1"])
    count.check("libbullmyrtle1 wants the C library", got[0] != 0 and b"libc6" in got[2], f"{got}")


def check_linked(count: ran.Count, root: Root) -> None:
    """A program in C, linked by pkg-config and statically."""
    with open(f"{root.folder}/host.c", "w", encoding="utf-8") as it:
        it.write(HOST)
    at = f"{root.folder}/{LIBRARY}"
    env = {**os.environ, "PKG_CONFIG_SYSROOT_DIR": root.folder, "PKG_CONFIG_LIBDIR": f"{at}/pkgconfig"}
    status, flags, errors = said(["pkg-config", "--cflags", "--libs", "bullmyrtle"], env=env)
    count.same("pkg-config knows the library for arm64", (status, errors), (0, b""))
    for name, words in {"host": flags.decode().split(), "still": [f"{at}/libbullmyrtle.a"]}.items():
        # (with the C library that is in the root)
        compiler = [arm64.COMPILER, f"--sysroot={root.folder}"]
        got = said([*compiler, f"{root.folder}/host.c", "-o", f"{root.folder}/{name}", *words])
        count.same(f"a program for arm64 is linked, {name}", got, (0, b"", b""))
        count.same(f"and runs, {name}", root.inside(f"/{name}"), (0, b"1\n", b""))


def check_python(count: ran.Count, root: Root) -> None:
    """A server over the package, and its commands. (The system can't start a program for arm64, but qemu can.)"""
    python, server = "/usr/bin/python3", [f"/{QEMU}", "/usr/bin/rpc_tool", "serve"]
    root.write("server.py", SERVER.encode())
    got = root.inside(python, "/server.py", given=REQUEST.encode())
    count.same("a server in Python on arm64", got[:2], (0, ANSWER.encode()))
    how = ["--rules", "jsonrpc", "--seconds", PATIENCE]
    commands = {
        "examine": ["--only", "a session begins", *how, "--", *server],
        "judge": ["--rules", "jsonrpc", "--", *server],
        "mcp": ["--help"],
    }
    for name, words in commands.items():
        got = root.with_proc(python, f"/usr/bin/bullmyrtle-{name}", *words)
        count.check(f"bullmyrtle-{name} on arm64", got[0] == 0, f"{got}"[-900:])


def check_installed(count: ran.Count, files: dict[str, str], root: Root) -> None:
    """All are installed, used and removed."""
    got = root.dpkg("-i", *files.values())
    count.check("dpkg -i, of all for arm64", got[0] == 0, f"{got}"[-900:])
    names = [f"{it}:arm64" for it in PACKAGES]
    count.same("dpkg --audit, of all for arm64", root.dpkg("--audit", *names)[:2], (0, b""))
    check_program(count, root, "for arm64, installed")
    check_linked(count, root)
    check_python(count, root)
    got = root.dpkg("-r", *names)
    left = [it for it in ("usr/include/bullmyrtle.h", "usr/bin/rpc_tool") if os.path.exists(f"{root.folder}/{it}")]
    count.same("all for arm64 is gone again", (got[0], left), (0, []))


def check(count: ran.Count, folder: str, room: str) -> None:
    """(`folder` has the packages, and `room` is one for what is made here)"""
    if "linux-arm64" not in ports.whole() or not static_program.is_whole():
        print("SKIPPED: the Debian packages for arm64, whose files bin/build-ports or bin/build-static hasn't made")
        return
    files = {it.partition("_")[0]: f"{folder}/{it}" for it in sorted(os.listdir(folder)) if it.endswith("_arm64.deb")}
    count.same("the Debian packages for arm64", sorted(files), PACKAGES)
    check_both(count, folder, f"{room}/both")
    if os.geteuid():
        print("SKIPPED: the Debian packages in a root for arm64, which takes root")
        return
    if any(ran.lacks(tool, f"it is in {package}") for tool, package in NEEDED.items()):
        return
    check_alone(count, files, room)
    try:
        packages = foreign.Apt("arm64", f"{arm64.HERE}/apt-packages").fetch_whole(OF_DEBIAN)
    except Fault as fault:
        print(f"SKIPPED: the Debian packages in a root for arm64, since {fault}")
        return
    check_installed(count, files, made(f"{room}/root", packages))
