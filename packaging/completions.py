"""What bash and zsh offer behind uss_desk: the commands of the API's table, and the options of each."""
import pathlib
import re
from typing import Optional

from documents import lines_of_the_program

Option = tuple[str, Optional[str]]
"""Its name, and that of its value."""

# Values that are paths; of others nothing is offered.
PATHS = ("FILE", "FOLDER", "NEW")


def options_of(words: list[str]) -> list[Option]:
    """The options among a line's words, each with the name of its value, or with none."""
    found = [re.match(r"\[?(--[a-z-]+)(?: ([^\]]+))?\]?$", word) for word in words]
    return [(it[1], it[2]) for it in found if it]


def all_options(top: pathlib.Path) -> list[Option]:
    """Each option of some line, with the name of its value, or with none."""
    return sorted(
        {option for _, words, _ in lines_of_the_program(top) for option in options_of(words)},
        key=lambda option: option[0],
    )


def for_bash(top: pathlib.Path) -> str:
    lines = lines_of_the_program(top)
    paths = "|".join(name for name, value in all_options(top) if value in PATHS)
    values = "|".join(name for name, value in all_options(top) if value and value not in PATHS)
    cases = "".join(
        f"    {line}) offered='{' '.join([*(name for name, _ in options_of(words)), '--help'])}' ;;\n"
        for line, words, _ in lines
    )
    return f"""# What bash offers behind uss_desk. Made of the table of docs/api.md.
_uss_desk() {{
    local word=${{COMP_WORDS[COMP_CWORD]}} offered=
    if [ "$COMP_CWORD" -eq 1 ]; then
        COMPREPLY=($(compgen -W '{' '.join(line for line, _, _ in lines)} --help --version' -- "$word"))
        return
    fi
    case ${{COMP_WORDS[COMP_CWORD - 1]}} in
    {paths})
        compopt -o filenames 2>/dev/null
        COMPREPLY=($(compgen -f -- "$word"))
        return
        ;;
    {values}) return ;;
    esac
    case ${{COMP_WORDS[1]}} in
{cases}    esac
    COMPREPLY=($(compgen -W "$offered" -- "$word"))
}}
complete -F _uss_desk uss_desk
"""


def zsh_option(name: str, value: Optional[str]) -> str:
    """An option as zsh's _arguments takes it."""
    if not value:
        return f"'{name}'"
    return f"'{name}=:{value}:{'_files' if value in PATHS else ' '}'"


def for_zsh(top: pathlib.Path) -> str:
    lines = lines_of_the_program(top)
    cases = "".join(
        f"    {line}) _arguments {' '.join([*(zsh_option(*it) for it in options_of(words)), '--help'])} ;;\n"
        for line, words, _ in lines
    )
    return f"""#compdef uss_desk
# What zsh offers behind uss_desk. Made of the table of docs/api.md.
_uss_desk() {{
    if (( CURRENT == 2 )); then
        compadd -- {' '.join(line for line, _, _ in lines)} --help --version
        return
    fi
    shift words
    (( CURRENT-- ))
    case $words[1] in
{cases}    esac
}}
_uss_desk "$@"
"""
