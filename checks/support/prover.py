"""The prover's own command for one crate, over libraries that lie anywhere.

`rt check` wants the crates below beside the crate, and builds those that it hasn't built itself."""
from tools import kit  # (it stands in bin/)
from tools.repository import Listing


def check(listed: Listing, name: str, libraries: dict[str, str], root: str, jobs: int) -> list[str]:
    """The words of a check of the crate in the current folder, over what out/incremental keeps, as `rt check` gives
    them: `libraries` has the folder in which the library of each crate below it lies."""
    at, used = kit.folder(), ["std", *listed.libraries[name]]
    words = [f"{at}/bin/rattle", "check", "--crate-name", name, root]
    for it in used:
        words += ["--extern", f"{it}={libraries.get(it, f'{at}/rlibs')}/{it}.rlib"]
    words += [it for folder in (f"{at}/rlibs", *libraries.values()) for it in ("-L", f"dependency={folder}")]
    words += ["--antt-project", f"{at}/rattle/logic/antt-project.json", "--logic-built", f"{at}/logic_built"]
    words += ["--crate-type", "staticlib"] if listed.is_static(name) else []
    return [*words, "--links", f"{name}=", "--incremental", "out/incremental", "--jobs", str(jobs)]
