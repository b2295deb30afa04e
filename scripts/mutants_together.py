"""Mutants of one crate that one check can try: each changes the body of a function of its own.

A body is proved against contracts alone, its own and those of what it calls. So where several bodies are mutants, and
no contract is, the prover says of each what it says of it alone, and the crate is loaded once for all of them. It looks
at no function that calls one that is refused, so no two functions of a group may call one another, by their names in
the text. A mutant that changes anything else (a clause, a type, a definition, a body that another mutant of the group
changes) is tried alone, and so is each that is not seen refused in a group.
"""
import re
from pathlib import Path
from typing import Dict, Iterable, List, Mapping, NamedTuple, Optional, Sequence, Set, Tuple

MOST_TOGETHER = 5  # a refused body takes longer than a proved one, and what is stopped is tried again
FUNCTION = re.compile(r"( *)(?:pub(?:\([a-z]+\))? )?(?:const )?(?:unsafe )?fn (\w+)")
TOLD = re.compile(r"(?:note: )?(?:\./)?(\S+?):(\d+):\d+: ")
# A proof file that names what the mutant took away says little of a contract.
NAMES_ALONE = re.compile(r"has no field|is not in scope|has no `|was not admitted|is no name")


class Function(NamedTuple):
    """A function of a source file: its name, its first line, and the first and last of its body, counted from 1."""

    file: str
    name: str
    head: int
    first: int
    last: int


class Change(NamedTuple):
    """A mutant: the functions whose bodies it changes, and what it writes there."""

    name: str
    functions: Tuple[Function, ...]
    pairs: Tuple[Tuple[str, str], ...]


def functions_of(file: str, text: str) -> List[Function]:
    """The functions of a source file that `rt fmt` laid out, but for those on one line. A body begins behind the
    clauses, with a brace on a line of its own, or with one at the end of a head that has none."""
    found: List[Function] = []
    indent = name = ""
    head = first = 0
    for number, line in enumerate(text.split("\n"), 1):
        begins = FUNCTION.match(line)
        if begins and not name:
            indent, name, head, first = begins[1], begins[2], number, 0
        if not name:
            continue
        is_head = bool(begins) or line.startswith(f"{indent})")
        if not first and is_head and line.endswith((";", "}")):
            name = ""
        elif not first and line.endswith("{") and (is_head or line == f"{indent}{{"):
            first = number
        elif first and line == f"{indent}}}":
            found.append(Function(file, name, head, first, number))
            name = ""
    return found


def change_of(mutant: Path, crate: Path) -> Optional[Change]:
    """What a mutant changes; None where that is not the bodies of functions alone, or it does not apply."""
    lines = mutant.read_text().splitlines()
    if not lines or not lines[0].startswith("file: src/") or len(lines) % 2 == 0:
        return None
    file = lines[0][len("file: "):]
    if not (crate / file).is_file():
        return None
    text = (crate / file).read_text()
    functions, touched, pairs = functions_of(file, text), [], []
    for old, new in zip(lines[1::2], lines[2::2]):
        if not old.startswith("old: ") or not new.startswith("new: ") or text.count(old[5:]) != 1:
            return None
        number = text[: text.index(old[5:])].count("\n") + 1
        within = [it for it in functions if it.first < number < it.last]
        if len(within) != 1:
            return None
        touched.append(within[0])
        pairs.append((old[5:], new[5:]))
    return Change(mutant.stem, tuple(sorted(set(touched))), tuple(pairs)) if touched else None


def calls_of(crate: Path) -> Dict[str, Set[str]]:
    """For each name of a crate's functions the names of those that it calls, through others, too; at least all of
    these: a name is taken for a call wherever it stands."""
    words: Dict[str, Set[str]] = {}
    for path in sorted((crate / "src").rglob("*.rt")):
        text = path.read_text()
        lines = text.split("\n")
        for it in functions_of(str(path.relative_to(crate)), text):
            words.setdefault(it.name, set()).update(*(re.findall(r"\w+", line) for line in lines[it.first : it.last]))
    calls = {name: found & set(words) for name, found in words.items()}
    grows = True
    while grows:
        wider = {name: found.union(*(calls[it] for it in found)) for name, found in calls.items()}
        grows, calls = wider != calls, wider
    return calls


def groups_of(changes: Iterable[Change], calls: Mapping[str, Set[str]]) -> List[List[Change]]:
    """The changes in groups of at most so many, in each of which no two change one function, nor one that calls
    another's."""
    groups: List[List[Change]] = []
    for change in changes:
        names = {it.name for it in change.functions}
        called = names.union(*(calls.get(it, set()) for it in names))
        for group in groups:
            others = {it.name for other in group for it in other.functions}
            called_there = others.union(*(calls.get(it, set()) for it in others))
            if len(group) < MOST_TOGETHER and not called & others and not called_there & names:
                group.append(change)
                break
        else:
            groups.append([change])
    return groups


def texts_with(changes: Iterable[Change], crate: Path) -> Optional[Dict[str, str]]:
    """The source files with all these changes; None where one of them moves what another looks for."""
    texts: Dict[str, str] = {}
    for change in changes:
        file = change.functions[0].file
        text = texts.get(file) or (crate / file).read_text()
        for old, new in change.pairs:
            if text.count(old) != 1:
                return None
            text = text.replace(old, new)
        texts[file] = text
    return texts


def is_about(line: str, function: Function) -> bool:
    """Whether a line that the prover printed tells of a goal of this function: at its head, in its body or answers."""
    told = TOLD.match(line)
    if told is None or NAMES_ALONE.search(line):
        return False
    if told[1] == function.file:
        return function.head <= int(told[2]) <= function.last and (": error" in line or line.startswith("note: "))
    module = Path(function.file).stem
    return told[1].startswith(f"proofs/{module}/") and f"/{function.name}/" in told[1] and ": error" in line


def refused_of(changes: Sequence[Change], printed: str) -> Set[str]:
    """The mutants of a group that the prover refused, by what it printed: each function that one changes is not proved,
    and a goal of it is named."""
    lines = printed.split("\n")
    ended = re.compile(r"fn (\S+): (?:not proved|no proof: expected answers)")
    bad = [it[1].split("::") for it in map(ended.match, lines) if it]
    found: Set[str] = set()
    for change in changes:
        for function in change.functions:
            module = Path(function.file).stem
            is_bad = any(it[-1] == function.name and (module in it or module == "lib") for it in bad)
            if is_bad and any(is_about(line, function) for line in lines):
                found.add(change.name)
    return found


def self_test() -> None:
    """Tries the rules of groups on a made-up file and a made-up prover's words; stops at the first that is wrong."""
    text = "impl It {\n    pub fn one(\n        self,\n    ) -> u64\n        ensures { result ≡ 1 }\n    {\n"
    text += "        1\n    }\n"
    text += "}\n\nfn two() {\n    2\n}\n\nfn three(x: u64) -> u64;\n"
    one, two = Function("src/it.rt", "one", 2, 6, 8), Function("src/it.rt", "two", 11, 11, 13)
    assert functions_of("src/it.rt", text) == [one, two], functions_of("src/it.rt", text)
    functions_and_numbers = (("a", one, "1"), ("b", two, "2"), ("c", two, "2"))
    changes = [Change(name, (function,), ((number, "3"),)) for name, function, number in functions_and_numbers]
    assert [[it.name for it in group] for group in groups_of(changes, {})] == [["a", "b"], ["c"]]
    called = {"two": {"one"}}
    assert [[it.name for it in group] for group in groups_of(changes, called)] == [["a"], ["b"], ["c"]]
    wrong = "note: src/it.rt:2:5: it is not proved that what it ensures holds\nfn crate::it::It::one: not proved\n"
    assert refused_of(changes[:2], wrong) == {"a"}
    searched = "no proof: expected answers in ./proofs/it/It/one/Answers.antt; `search` did not prove `returns`"
    assert refused_of(changes[:2], wrong.replace("not proved\n", f"{searched}\n")) == {"a"}
    calls_one = "no proof: it calls `x`, which is not proved\n"
    assert refused_of(changes[:2], wrong.replace("not proved\n", calls_one)) == set()
    assert refused_of(changes[:2], wrong.replace(":2:", ":12:")) == set()
    assert refused_of(changes[:2], wrong.replace("not proved\n", "proved\n")) == set()
    away = "./proofs/it/It/one/Answers.antt:1:2: error: `x`: has no field `y`\nfn crate::it::It::one: not proved\n"
    assert refused_of(changes[:2], away) == set()
    assert refused_of(changes[:2], away.replace("has no field", "is no")) == {"a"}
