"""What a check's output says of each function, and why those that fall do."""
import os
import re
from dataclasses import dataclass, field

LINE = re.compile(
    r"(fn|struct|enum|union|impl|trait|law) (\S+): (proved|not proved|no proof|could not tell|assumed|not assumed)\b(.*)"
)
ONLY = re.compile(r"only=(?P<asked>\d+) proved=(?P<proved>\d+)")
# (of a program or a static library the line has more words than of a library, as `axioms=3
# target=x86_64-unknown-linux-gnu`)
LOGIC = re.compile(r"logic=(?P<word>proved|not-proved)(?: [\w-]+=\S+)*")
GOAL = re.compile(
    r"note: (?P<place>\S+:\d+:\d+): it is not proved that (?P<what>.*?) \(`(?P<goal>[^`]+)`\)(?P<rest>.*)"
)
ERROR = re.compile(r"(?:\./)?(?P<file>(?:src|specs|proofs)/\S+?):(?P<line>\d+):\d+: error: (?P<what>.*)")
GONE = re.compile(r"has no field|is not in scope|has no `|was not admitted")
OWED = re.compile(
    r"it calls |it waits for the proof of |the borrow checker's part in its proof is not made yet: a call of .*, which has no proof"
)
OWED_IN_CYCLE = re.compile(r"`search` did not prove |expected answers in ")
UNCOVERED = re.compile(r"the borrow checker(?: does not cover this function yet|'s part in its proof is not made yet)")
UNREAD = re.compile(r"is not in scope|has no field|is no name|operand is missing|expected the end|cannot continue")


@dataclass
class Verdict:
    """What the check says of one function, type or impl."""

    kind: str
    name: str
    word: str
    rest: str
    goals: list[str] = field(
        default_factory=list
    )  # its goals that stay open, each with how sure it is that they are false
    answers: list[str] = field(default_factory=list)  # its answers by hand that no longer fit

    @property
    def is_proved(self) -> bool:
        return self.word == "proved"

    @property
    def is_by_compiler(self) -> bool:
        """Whether the compiler made it: a drop, a closure's call. Which of these there are may change with a body."""
        return "+" in self.name

    @property
    def reasons(self) -> list[str]:
        """Why it isn't proved, as its line says."""
        return [it.strip() for it in self.rest.lstrip(":; ").split("; ") if it.strip()]

    @property
    def is_judged(self) -> bool:
        """Whether the prover judged it. It did not where it can't tell, or has no rule for a statement, whatever the
        contract says."""
        return self.word != "could not tell" and not any(
            UNCOVERED.search(it) and not OWED.search(it) for it in self.reasons
        )

    @property
    def falls_by_itself(self) -> bool:
        """Whether it falls for a reason of its own, and not only because it calls what isn't proved."""
        if self.is_proved:
            return False
        if self.goals or self.answers:
            return True
        if re.match(r"in `[^`]+`, of this cycle of calls: ", self.rest.lstrip(":; ")):
            return False
        # (of a member of a cycle of calls the line tells of the whole cycle)
        is_owed = bool(self.reasons) and all(
            OWED.match(it) or self.cycle and OWED_IN_CYCLE.match(it) for it in self.reasons
        )
        return not is_owed or self.kind == "fn" and self.word != "no proof"

    @property
    def cycle(self) -> str:
        """The folder with the answers of its cycle of calls, where its line names one."""
        named = re.search(r"proofs/\S*/\+\w+/", self.rest)
        return named[0] if named else ""


@dataclass
class Output:
    """A check's output, read."""

    verdicts: dict[str, Verdict]
    is_proved: bool
    has_verdict: bool
    unread: list[str]  # texts of src/ that the prover could not read
    first_error: str

    def fallen(self) -> list[Verdict]:
        return [it for it in self.verdicts.values() if it.falls_by_itself]


def strength(rest: str) -> str:
    """How much an open goal says, by what the check adds to it."""
    if "is false" in rest:
        return " is false for some values"
    if "gave up at one of its limits" in rest:
        return " (the search met a limit)"
    return ""


def with_unproved(goals: list[str], rest: str) -> list[str]:
    """The goals that notes told of, and those that the function's own line names beside them."""
    named = re.search(r"`search` did not prove ((?:`[^`]+`(?:, )?)+)", rest)
    told = {it.split("`")[1] for it in goals}
    return goals + [f"`{it}`" for it in re.findall(r"`([^`]+)`", named[1] if named else "") if it not in told]


def folder_of(name: str) -> str:
    """The folder of proofs/ that holds what is written of a function's proof."""
    return "proofs/" + "/".join(name.split("::")[1:]) + "/"


def is_unread(error: "re.Match[str]") -> bool:
    """Whether a text of src/ can't be read, where one that only makes a statement false reads well."""
    said = re.sub(r"`[^`]*`", "", error["what"])
    return not error["file"].startswith("proofs/") and bool(UNREAD.search(said))


def goal_of_answer(what: str) -> str:
    """The goal that an answer by hand was for, and whether the answer just names what is gone."""
    goal = re.match(r"`([^`]+)`: (.*)", what)
    if not goal:
        return what[:80]
    return f"`{goal[1]}`" + (" (it names what is gone)" if GONE.search(goal[2]) else "")


def attach(errors: list["re.Match[str]"], verdicts: dict[str, Verdict]) -> None:
    """Gives each error on an answer to the function that the answer is of; in a cycle of calls the answer's name begins
    with it."""
    by_folder = {folder_of(it.name): it for it in verdicts.values()}
    for error in errors:
        folder, _, cycle = os.path.dirname(error["file"]).rpartition("/")
        answer = goal_of_answer(error["what"])
        member = answer.strip("`").partition("-")[0]
        verdict = by_folder.get(f"{folder}/{member}/" if cycle.startswith("+") else f"{folder}/{cycle}/")
        if verdict:
            verdict.answers.append(answer)


def own_goals(verdict: Verdict, verdicts: dict[str, Verdict]) -> list[str]:
    """The open goals of a function. The line of a member of a cycle of calls names those of all, each beginning with
    its function."""
    if not verdict.cycle:
        return verdict.goals
    others = [
        it.name.rpartition("::")[2] for it in verdicts.values() if it.cycle == verdict.cycle and it is not verdict
    ]
    return [it for it in verdict.goals if not it.startswith(tuple(f"`{name}-" for name in others))]


def verdict_of(logic: list[str]) -> tuple[bool, bool]:
    """Whether the last lines of a check say that all is proved, and whether they say anything. A check of some
    functions counts them."""
    if len(logic) != 1:
        return False, False
    if only := ONLY.fullmatch(logic[0]):
        return only["asked"] == only["proved"] != "0", True
    told = LOGIC.fullmatch(logic[0].rstrip())
    return told is not None and told["word"] == "proved", told is not None


def read_output(text: str) -> Output:
    """Reads a check's output. The notes on a function's goals stand right before its line, the errors on its answers
    anywhere."""
    verdicts: dict[str, Verdict] = {}
    errors: list["re.Match[str]"] = []
    goals: list[str] = []
    logic: list[str] = []
    lines = [it for it in text.split("\n") if not it.startswith("so far:")]
    for line in lines:
        if found := LINE.fullmatch(line):
            read = Verdict(found[1], found[2], found[3], found[4], with_unproved(goals, found[4]))
            if read.name not in verdicts or verdicts[read.name].is_proved:
                verdicts[read.name] = read
            goals = []
        elif found := GOAL.match(line):
            goals.append(f"`{found['goal']}`{strength(found['rest'])}")
        elif found := ERROR.match(line):
            errors.append(found)
        elif line.startswith("logic=") or ONLY.fullmatch(line):
            logic.append(line)
    attach(errors, verdicts)
    for it in verdicts.values():
        it.goals = own_goals(it, verdicts)
    first = next(
        (it for it in lines if re.search(r"\berror(\[|:)", it) or it.startswith(("rt: ", "rattle"))),
        lines[0] if lines else "",
    )
    unread = [f"{it['file']}:{it['line']}: {it['what'][:160]}" for it in errors if is_unread(it)]
    is_proved, has_verdict = verdict_of(logic)
    has_verdict = has_verdict and bool(verdicts)
    return Output(verdicts, is_proved, has_verdict, unread, first[:240])
