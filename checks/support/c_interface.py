"""What C sees of the library, read four times: from the header, from the sources of the exports, from the map of the
calls, and from the declarations of the crate in Rust."""
import ctypes
import os
import re

from support import ran

HEADER = os.path.join(ran.TOP, "include", "bullmyrtle.h")
MAP = os.path.join(ran.TOP, "include", "bullmyrtle.map")
CRATES = os.path.join(ran.TOP, "crates")
EXPORTS = [os.path.join(CRATES, "bullmyrtle", "src", it) for it in ("lib.rt", "judging.rt")]
RUST = os.path.join(ran.TOP, "bindings", "rust", "src", "sys.rs")

# What stands in C for a type of an export's parameter, or of its result.
IN_C = {
    "Global": [],
    "Handle": ["bm_connection"],
    "&mut Handle": ["bm_connection *"],
    "*mut Handle": ["void **"],
    "&Options": ["const bm_options *"],
    "&mut LentEvent": ["bm_event *"],
    "&mut Report": ["bm_report *"],
    "&mut [Saying]": ["bm_saying *", "size_t"],
    "JudgeHandle": ["bm_judge"],
    "&mut JudgeHandle": ["bm_judge *"],
    "*mut JudgeHandle": ["void **"],
    "&JudgeOptions": ["const bm_judge_options *"],
    "&mut [HostFinding]": ["bm_finding *", "size_t"],
    "&[u8]": ["const uint8_t *", "size_t"],
    "&mut *const u8": ["const uint8_t **"],
    "*const u8": ["const uint8_t *"],
    "&[usize]": ["const size_t *", "size_t"],
    "&mut u64": ["uint64_t *"],
    "&mut usize": ["size_t *"],
    "u32": ["uint32_t"],
    "u64": ["uint64_t"],
    "i32": ["int32_t"],
    "i64": ["int64_t"],
    "usize": ["size_t"],
    "bool": ["bool"],
}
# The same for what stock Rust declares.
IN_RUST = {
    "bm_connection": "bm_connection",
    "*mut bm_connection": "bm_connection *",
    "*const bm_options": "const bm_options *",
    "*mut bm_event": "bm_event *",
    "*mut bm_report": "bm_report *",
    "*mut bm_saying": "bm_saying *",
    "bm_judge": "bm_judge",
    "*mut bm_judge": "bm_judge *",
    "*const bm_judge_options": "const bm_judge_options *",
    "*mut bm_finding": "bm_finding *",
    "*mut *mut c_void": "void **",
    "*const u8": "const uint8_t *",
    "*mut *const u8": "const uint8_t **",
    "*const usize": "const size_t *",
    "*mut usize": "size_t *",
    "*mut u64": "uint64_t *",
    "u32": "uint32_t",
    "u64": "uint64_t",
    "i32": "int32_t",
    "i64": "int64_t",
    "usize": "size_t",
    "bool": "bool",
}
# The structs: by their names in C, the file and the name of the struct that the exports have for each.
STRUCTS = {
    "bm_options": ("bullmyrtle/src/settings.rt", "Options"),
    "bm_event": ("host_calls/src/head.rt", "LentEvent"),
    "bm_report": ("bullmyrtle/src/report.rt", "Report"),
    "bm_saying": ("host_calls/src/sayings.rt", "Saying"),
    "bm_judge_options": ("judge_calls/src/options.rt", "JudgeOptions"),
    "bm_finding": ("judge_calls/src/finding.rt", "HostFinding"),
}
# The structs that stand in another by themselves, whose fields lie there.
WITHIN = {"EventHead": ("host_calls/src/head.rt", "EventHead")}
# What hosts rely on that were built for this interface: the sizes of its structs and the places of their fields, and
# the values of its names. They stay as long as BM_INTERFACE does.
INTERFACE, VERSION = 1, "BULLMYRTLE_1"
LAYOUTS = {
    "bm_options": [40, 0, 4, 8, 12, 16, 20, 24, 32, 36],
    "bm_event": [80, 0, 4, 8, 16, 24, 32, 40, 48, 56, 64, 72],
    "bm_report": [72, 0, 8, 16, 24, 32, 40, 48, 56, 64],
    "bm_saying": [56, 0, 4, 8, 16, 24, 32, 40, 48],
    "bm_judge_options": [20, 0, 4, 8, 12, 16],
    "bm_finding": [40, 0, 4, 8, 12, 16, 24, 32],
}
CODES = (
    "BM_OK BM_NO_MEMORY BM_NOT_OPEN BM_NOT_WAITING BM_OVER BM_NOT_JSON BM_NOT_TEXT BM_SETTINGS BM_EMPTY BM_FULL".split()
)
ENDS = (
    "BM_OVER_CLEAN BM_OVER_BAD_HEAD BM_OVER_BAD_LENGTH BM_OVER_TWO_LENGTHS BM_OVER_TOO_LARGE BM_OVER_NO_LENGTH "
    "BM_OVER_HEAD_TOO_LONG BM_OVER_TRUNCATED BM_OVER_READ BM_OVER_CALLS"
).split()
NAMES = (
    CODES,
    "BM_FRAMES BM_LINES BM_CONTENTS".split(),
    "BM_AS_ANSWERED BM_AS_CAME".split(),
    "BM_CANCELS_NONE BM_CANCELS_LSP BM_CANCELS_MCP".split(),
    "BM_CLOSED BM_READ_FAILED".split(),
    "BM_NONE BM_CALL BM_CANCELLED BM_REPLIED BM_UNANSWERED BM_INPUT_OVER BM_BROKEN".split(),
    "BM_UNREADABLE BM_INVALID".split(),
    ENDS,
    (
        "BM_RULES_JSONRPC BM_RULES_LSP BM_RULES_MCP BM_RULES_MCP_2025_06_18 BM_RULES_MCP_2025_03_26"
        " BM_RULES_MCP_2024_11_05"
    ).split(),
    "BM_CLIENT BM_SERVER".split(),
    "BM_MUST BM_SHOULD BM_NOTE".split(),
    "BM_WHOSE_CONNECTION BM_WHOSE_HOST BM_WHOSE_NOBODY".split(),
)
# The same of the names whose values begin with 1.
NAMES_FROM_1 = (
    ["BM_REQUEST"],
    ["BM_ERROR"],
    (
        "BM_SAY_ANSWER BM_SAY_FAIL BM_SAY_CLOSE BM_SAY_CALL BM_SAY_BATCH BM_SAY_NOTIFY BM_SAY_WITHDRAW BM_SAY_CANCEL"
    ).split(),
)
# What the static library defines beside the calls, by which it takes memory (docs/embedding.md names them).
OF_THE_HEAP = {"rattle_alloc", "rattle_dealloc", "rattle_realloc"}
# What the library takes of the C library of the program that loads it.
OF_C = ("free", "malloc", "memcpy", "memmove", "memset", "realloc")
WIDTHS = {
    "int32_t": ctypes.c_int32,
    "uint32_t": ctypes.c_uint32,
    "uint64_t": ctypes.c_uint64,
    "int64_t": ctypes.c_int64,
    "size_t": ctypes.c_size_t,
    "const uint8_t *": ctypes.c_void_p,
}


def text_of(file: str) -> str:
    with open(file, encoding="utf-8") as it:
        return it.read()


def without_comments(text: str) -> str:
    return re.sub(r"/\*.*?\*/", "", text, flags=re.S)


def type_in_c(words: str) -> str:
    """The type of a parameter, without its name."""
    kind, star, _ = re.fullmatch(r"\s*((?:const )?\w+)\s*(\**)(\w*)\s*", words).groups()
    return f"{kind} {star}" if star else kind


def in_header() -> dict[str, tuple[str, list[str]]]:
    """By the calls' names, what each gives and takes."""
    found = re.findall(r"^(\w+) (bm_\w+)\(([^)]*)\);", without_comments(text_of(HEADER)), re.M)
    return {
        name: (gives, [] if takes == "void" else [type_in_c(it) for it in takes.split(",")])
        for gives, name, takes in found
    }


def in_map() -> list[str]:
    return sorted(re.findall(r"^ +(bm_\w+);$", text_of(MAP), re.M))


def versions_in_map() -> list[str]:
    return re.findall(r"^(\w+) \{\nglobal:$", text_of(MAP), re.M)


def interface_in_header() -> int:
    return int(re.search(r"^#define BM_INTERFACE (\d+)$", text_of(HEADER), re.M).group(1))


def names_in_header() -> dict[str, int]:
    """The names of the header's enumerations, with their values."""
    made = dict[str, int]()
    for body in re.findall(r"^enum \{(.*?)\};", without_comments(text_of(HEADER)), re.M | re.S):
        value = -1
        for name, given in re.findall(r"(BM_\w+)(?: = (\d+))?", body):
            value = int(given) if given else value + 1
            made[name] = value
    return made


def in_exports() -> dict[str, tuple[str, list[str]]]:
    text = "".join(map(text_of, EXPORTS))
    found = re.findall(r'pub (?:unsafe )?extern "C" fn (bm_\w+)\(([^)]*)\)(?: -> (\w+))?', text)
    made = {}
    for name, takes, gives in found:
        kinds = [it.split(":", 1)[1].strip() for it in takes.split(",") if it.strip()]
        made[name] = (IN_C[gives][0] if gives else "void", [part for kind in kinds for part in IN_C[kind]])
    return made


def in_rust() -> dict[str, tuple[str, list[str]]]:
    """By the calls' names, what each gives and takes as stock Rust declares them."""
    found = re.findall(r"pub fn (bm_\w+)\(([^)]*)\)(?: -> (\w+))?;", text_of(RUST))
    kinds = {name: [it.split(":", 1)[1].strip() for it in takes.split(",") if it.strip()] for name, takes, _ in found}
    return {
        name: (IN_RUST[gives] if gives else "void", [IN_RUST[it] for it in kinds[name]]) for name, _, gives in found
    }


def fields_in_rust(name: str) -> list[tuple[str, str]]:
    body = re.search(r"#\[repr\(C\)\]\n(?:#.*\n)*pub struct " + name + r" \{([^}]*)\}", text_of(RUST)).group(1)
    return [(IN_RUST[kind], field) for field, kind in re.findall(r"pub (\w+): ([^,]+),", body)]


def fields_in_header(name: str) -> list[tuple[str, str]]:
    """The fields of a struct: their types and names."""
    body = re.search(r"typedef struct \{([^}]*)\} " + name + ";", without_comments(text_of(HEADER))).group(1)
    return [(type_in_c(it), it.split()[-1].lstrip("*")) for it in body.split(";") if it.strip()]


def fields_in_exports(name: str) -> list[tuple[str, str]]:
    return fields_of_export(*STRUCTS[name])


def fields_of_export(file: str, kind: str) -> list[tuple[str, str]]:
    before, body = re.search(
        r"(#\[repr\(C\)\]\n(?:#.*\n)*)pub struct " + kind + r" \{([^}]*)\}", text_of(os.path.join(CRATES, file))
    ).groups()
    assert before
    made = []
    for field, its in re.findall(r"pub (\w+): ([^,]+),", body):
        made += fields_of_export(*WITHIN[its]) if its in WITHIN else [(IN_C[its][0], field)]
    return made


def laid_out(name: str) -> list[int]:
    """The size of a struct and the places of its fields, by ctypes."""
    struct = type(
        name, (ctypes.Structure,), {"_fields_": [(field, WIDTHS[kind]) for kind, field in fields_in_header(name)]}
    )
    return [ctypes.sizeof(struct), *(getattr(struct, field).offset for _, field in fields_in_header(name))]


def program_of_layouts() -> str:
    """A program in C that writes the same for each struct, a line each."""
    lines = []
    for name in STRUCTS:
        numbers = [f"sizeof({name})", *(f"offsetof({name}, {field})" for _, field in fields_in_header(name))]
        lines += [f'    printf("{name}");', *(f'    printf(" %zu", {it});' for it in numbers), '    printf("\\n");']
    return (
        '#include "bullmyrtle.h"\n#include <stdio.h>\n\nint main(void)\n{\n' + "\n".join(lines) + "\n    return 0;\n}\n"
    )


def program_of_texts(codes: int, ends: int) -> str:
    """A program in C that writes the texts of so many codes and ends, a line each."""
    lines = [f"    for (int i = -1; i <= {codes}; i++)", "        puts(bm_code_text(i));"]
    lines += [f"    for (unsigned i = 0; i <= {ends}; i++)", "        puts(bm_over_text(i));"]
    return (
        '#include "bullmyrtle.h"\n#include <stdio.h>\n\nint main(void)\n{\n' + "\n".join(lines) + "\n    return 0;\n}\n"
    )
