"""The completions of a command line program for bash, zsh and fish, made of what its help says."""
from dataclasses import dataclass
from typing import List

SHAPEFILES = {"MAIN", "CITY", "PARCELS", "ZONES", "DISTRICTS"}
"""The names of words that are layers."""
ANY_FILES = {"FILE", "BASE"}
"""The names of words that are files of any kind."""


@dataclass
class Option:
    """An option: the words it is given by, the names of its values, what they may be, and what the help says."""

    words: List[str]
    values: List[str]
    choices: List[str]
    says: str
    repeats: bool


@dataclass
class Command:
    """A command: its name, what it does, the names of the words behind it, and its options."""

    name: str
    about: str
    places: List[str]
    options: List[Option]


def first_words(text: str) -> str:
    """A help text up to its first semicolon, without marks that shells read."""
    return text.partition(";")[0].partition(" [")[0].replace("`", "").replace("'", "").replace('"', "").replace(":", "")


def bash(program: str, commands: List[Command], top: List[str]) -> str:
    """The completion for bash. Names of files may have blanks and be begun with a quote."""
    names = " ".join(it.name for it in commands)
    behind, cases = [], []
    for option in {it.words[-1]: it for one in commands for it in one.options if it.values}.values():
        if option.choices:
            what = f"_{program}_words '{' '.join(option.choices)}'"
        elif option.values[0] in SHAPEFILES:
            what = f"_{program}_files '!*.[sS][hH][pP]'"
        else:
            what = f"_{program}_files ''" if option.values[0] in ANY_FILES else ":"
        behind.append(f"    {option.words[-1]}) {what}; return ;;")
    for one in commands:
        cases.append(f"    {one.name}) options='{' '.join(word for it in one.options for word in it.words)}' ;;")
    return "\n".join(
        [
            f"# Made by scripts/help_pages from what {program} --help prints.",
            f'_{program}_words() {{ COMPREPLY=($(compgen -W "$1" -- "$word")); }}',
            f"_{program}_files() {{",
            '  local name plain="${word//\\\\/}"',
            '  plain="${plain#[\\"\\\']}"',
            "  compopt -o filenames 2> /dev/null",
            '  while IFS= read -r name; do COMPREPLY+=("$name"); done < <(',
            '    { compgen -f ${1:+-X "$1"} -- "$plain"; compgen -d -- "$plain"; } | sort -u)',
            "}",
            f"_{program}() {{",
            '  local word="${COMP_WORDS[COMP_CWORD]}" before="${COMP_WORDS[COMP_CWORD-1]}" options=',
            "  COMPREPLY=()",
            '  case "$word:$before" in',
            "    =:*) word= ;;",
            '    *:=) before="${COMP_WORDS[COMP_CWORD-2]}" ;;',
            "  esac",
            '  if [ "$COMP_CWORD" -eq 1 ]; then',
            f"    _{program}_words '{names} help {' '.join(top)}'",
            "    return",
            "  fi",
            '  case "$before" in',
            *behind,
            "  esac",
            '  case "${COMP_WORDS[1]}" in',
            f"    help) _{program}_words '{names}'; return ;;",
            *cases,
            "  esac",
            '  case "$word" in',
            f'    -*) _{program}_words "$options" ;;',
            f"    *) _{program}_files '!*.[sS][hH][pP]' ;;",
            "  esac",
            "}",
            f"complete -F _{program} {program}",
            "",
        ]
    )


def zsh_value(name: str, choices: List[str]) -> str:
    """What zsh completes for a value."""
    if choices:
        return f"({' '.join(choices)})"
    if name in SHAPEFILES:
        return '_files -g "*.(#i)shp"'
    return "_files" if name in ANY_FILES else " "


def zsh(program: str, commands: List[Command], top: List[str]) -> str:
    """The completion for zsh."""
    lines = [
        f"#compdef {program}",
        f"# Made by scripts/help_pages from what {program} --help prints.",
        "local -a commands",
        "commands=(",
    ]
    lines += [f"  '{one.name}:{first_words(one.about)}'" for one in commands]
    lines += [
        "  'help:Print help'",
        ")",
        "if (( CURRENT == 2 )); then",
        f"  _describe command commands -- && return",
        f"  compadd -- {' '.join(top)}",
        "  return",
        "fi",
        "local command=$words[2]",
        "shift words",
        "(( CURRENT-- ))",
        "case $command in",
        "  help) _describe command commands ;;",
    ]
    for one in commands:
        lines.append(f"  {one.name})\n    _arguments \\")
        for option in one.options:
            values = "".join(f":{it}:{zsh_value(it, option.choices)}" for it in option.values)
            for word in option.words:
                lines.append(f"      '{'*' if option.repeats else ''}{word}[{first_words(option.says)}]{values}' \\")
        for number, place in enumerate(one.places, 1):
            number_or_all = "*" if place == "CODE" else str(number)
            lines.append(f"      '{number_or_all}:{place}:{zsh_value(place, [])}' \\")
        lines[-1] = lines[-1].removesuffix(" \\") + " ;;"
    return "\n".join([*lines, "esac", ""])


def fish(program: str, commands: List[Command], top: List[str]) -> str:
    """The completion for fish."""
    shapefiles = "(__fish_complete_suffix .shp)"
    lines = [f"# Made by scripts/help_pages from what {program} --help prints.", f"complete -c {program} -f"]
    for one in commands:
        lines.append(f"complete -c {program} -n __fish_use_subcommand -a {one.name} -d '{first_words(one.about)}'")
    lines += [
        f"complete -c {program} -n __fish_use_subcommand -l {it.removeprefix('--')}"
        for it in top
        if it.startswith("--")
    ]
    for one in commands:
        begin = f"complete -c {program} -n '__fish_seen_subcommand_from {one.name}'"
        if SHAPEFILES & set(one.places):
            lines.append(f"{begin} -k -a '{shapefiles}'")
        for option in one.options:
            words = " ".join(f"-l {it[2:]}" if it.startswith("--") else f"-s {it[1:]}" for it in option.words)
            value = ""
            if option.choices:
                value = f" -x -a '{' '.join(option.choices)}'"
            elif option.values:
                kind = option.values[0]
                value = " -r -F" if kind in ANY_FILES else f" -x -k -a '{shapefiles}'" if kind in SHAPEFILES else " -x"
            lines.append(f"{begin} {words}{value} -d '{first_words(option.says)}'")
    return "\n".join([*lines, ""])
