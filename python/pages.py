#!/usr/bin/env python3
"""Make the completions and the manual page of mpslp-tools from its parser: python3 python/pages.py [--write]

Without --write it lists the files that are not as they would be made, and exits with 1 if there is one. It needs the
installed package, as python/check.sh installs it.
"""

from __future__ import annotations

import argparse
import re
import sys
from collections.abc import Callable, Iterator
from pathlib import Path
from typing import NamedTuple

from mpslp import _mpslp
from mpslp._commands import COMMANDS, command_of
from mpslp._commands._outcomes import MEANINGS
from mpslp._commands._parser import CommandParser, parser

ROOT = Path(__file__).resolve().parent.parent
_DIRECTORIES = "DIR"
_FILES = ("FILE", "MAP")


class Argument(NamedTuple):
    """An option, or the files of a command."""

    names: tuple[str, ...]
    help: str
    value: str
    """What its value is called; empty if it has none."""
    choices: tuple[str, ...]
    rivals: tuple[str, ...]
    """The names of the options with which it does not go."""
    is_repeated: bool

    @property
    def short(self) -> tuple[str, ...]:
        return tuple(name[1:] for name in self.names if name[1] != "-")

    @property
    def long(self) -> tuple[str, ...]:
        return tuple(name[2:] for name in self.names if name[1] == "-")


class Words(NamedTuple):
    """The options of a command, and what its other arguments are."""

    options: tuple[Argument, ...]
    operand: Argument | None


def words_of_the_commands() -> dict[str, Words]:
    """The arguments of each command, as its parser has them."""
    made = parser("mpslp-tools")
    subparsers = next(action for action in made._actions if isinstance(action.choices, dict))
    return {name: _words(subparsers.choices[name]) for name in COMMANDS}  # type: ignore[index]


def _words(command: CommandParser) -> Words:
    rivals = {
        id(action): group._group_actions
        for group in command._mutually_exclusive_groups
        for action in group._group_actions
    }
    options, operands = [], []
    for action in command._actions:
        others = [name for other in rivals.get(id(action), []) if other is not action for name in other.option_strings]
        given = Argument(
            tuple(action.option_strings),
            " ".join(str(action.help).split("\n")),
            "" if action.nargs == 0 else str(action.metavar),
            tuple(map(str, action.choices or ())),
            tuple(others),
            isinstance(action, argparse._AppendAction) or action.metavar == "HOW",
        )
        (options if given.names else operands).append(given)
    return Words(tuple(options), operands[0] if operands else None)


# ---- bash


def bash(commands: dict[str, Words]) -> str:
    every = [option for words in commands.values() for option in words.options]
    cases = "".join(
        _bash_case("|".join(f" {name} " for name in names).strip(), f"compgen -W '{' '.join(choices)}'")
        for choices, names in _by(every, lambda option: option.choices if option.value else ()).items()
        if choices
    )
    directories = sorted({name for option in every if option.value == _DIRECTORIES for name in option.names})
    nothing = sorted(
        {
            name
            for option in every
            if option.value and not option.choices and option.value not in (*_FILES, _DIRECTORIES, "HOW")
            for name in option.names
        }
    )
    cases += (
        _bash_case(" | ".join(directories), "compgen -d")
        + f"        {' | '.join(nothing)})\n            return\n            ;;\n"
    )
    options = "".join(f"        {name}) options='{' '.join(_long(words))}' ;;\n" for name, words in commands.items())
    return f"""\
# Completion of mpslp-tools for bash. Made by python/pages.py.
_mpslp_tools() {{
    local word=${{COMP_WORDS[COMP_CWORD]}} previous=${{COMP_WORDS[COMP_CWORD - 1]}} command=${{COMP_WORDS[1]}} options=
    COMPREPLY=()
    if ((COMP_CWORD == 1)); then
        mapfile -t COMPREPLY < <(compgen -W '{' '.join(commands)} --help --version' -- "$word")
        return
    fi
    case $previous in
{cases}    esac
    case $command in
{options}    esac
    case $command:$word in
        *:-*)
            mapfile -t COMPREPLY < <(compgen -W "$options" -- "$word")
            ;;
        explain:*)
            mapfile -t COMPREPLY < <(compgen -W "$("${{COMP_WORDS[0]}}" explain 2> /dev/null)" -- "$word")
            ;;
        *)
            compopt -o filenames
            mapfile -t COMPREPLY < <(compgen -f -- "$word")
            ;;
    esac
}}
complete -F _mpslp_tools mpslp-tools
"""


def _bash_case(names: str, words: str) -> str:
    return (
        f'        {names})\n            mapfile -t COMPREPLY < <({words} -- "$word")\n            return\n'
        "            ;;\n"
    )


def _long(words: Words) -> list[str]:
    names = [name for option in words.options for name in option.names if name.startswith("--")]
    return [*names, *("-Werror" for option in words.options if option.value == "HOW")]


def _by(options: list[Argument], key: Callable[[Argument], tuple[str, ...]]) -> dict[tuple[str, ...], list[str]]:
    """The names of options by what they have in common."""
    found: dict[tuple[str, ...], list[str]] = {}
    for option in options:
        names = found.setdefault(key(option), [])
        names.extend(name for name in option.names if name not in names)
    return found


# ---- zsh


def zsh(commands: dict[str, Words]) -> str:
    listed = "".join(f"    '{name}:{help}'\n" for name, help in COMMANDS.items())
    cases = "".join(f"    {name})\n{_zsh_case(name, words)}        ;;\n" for name, words in commands.items())
    return f"""\
#compdef mpslp-tools
# Completion of mpslp-tools for zsh. Made by python/pages.py.

local -a subcommands kinds
subcommands=(
{listed})

if ((CURRENT == 2)); then
    if [[ $PREFIX == -* ]]; then
        _arguments '(- *)'{{-h,--help}}'[print help]' '(- *)'{{-V,--version}}'[print the version]'
    else
        _describe command subcommands
    fi
    return
fi

local subcommand=$words[2]
shift words
((CURRENT--))
case $subcommand in
{cases}esac
"""


def _zsh_case(name: str, words: Words) -> str:
    lines = [_zsh_option(option) for option in words.options]
    if name == "explain":
        before = '        kinds=(${(f)"$(_call_program kinds mpslp-tools explain 2> /dev/null)"})\n'
        lines.append('"*:kind:($kinds)"')
    else:
        before = ""
        lines.append("'*:file:_files'")
    return before + "        _arguments \\\n" + " \\\n".join(f"            {line}" for line in lines) + "\n"


def _zsh_option(option: Argument) -> str:
    text = option.help.replace("[", "(").replace("]", ")").replace("'", "'\\''").replace(":", "\\:")
    value = "" if not option.value else f":{option.value.lower()}:{_zsh_values(option)}"
    if option.value == "HOW":
        return f"'*{option.names[0]}-[{text}]:how:(error)'"
    if option.names[0] == "-h":
        excluded = "(- *)"
    else:
        excluded = "*" if option.is_repeated else f"({' '.join((*option.rivals, *option.names))})"
    names = option.names[0] if len(option.names) == 1 else f"'{{{','.join(option.names)}}}'"
    return f"'{excluded}{names}[{text}]{value}'"


def _zsh_values(option: Argument) -> str:
    if option.choices:
        return f"({' '.join(option.choices)})"
    return "_files -/" if option.value == _DIRECTORIES else "_files" if option.value in _FILES else " "


# ---- fish


def fish(commands: dict[str, Words]) -> str:
    lines = [
        f"complete -c mpslp-tools -n __mpslp_tools_first -a {name} -d '{_capital(help)}'"
        for name, help in COMMANDS.items()
    ]
    lines.append("complete -c mpslp-tools -n __mpslp_tools_first -s V -l version -d 'Print the version'")
    with_files = [
        name for name, words in commands.items() if words.operand is not None and words.operand.value in ("", "FILE")
    ]
    lines.append(f"complete -c mpslp-tools -n '__mpslp_tools_at {' '.join(with_files)}' -F")
    lines.append("complete -c mpslp-tools -n '__mpslp_tools_at explain' -a '(mpslp-tools explain 2> /dev/null)'")
    lines.append("complete -c mpslp-tools -s h -l help -d 'Print this help'")
    found: dict[str, list[str]] = {}
    for name, words in commands.items():
        for option in words.options:
            if option.names[0] != "-h":
                found.setdefault(_fish_option(option), []).append(name)
    lines += [
        f"complete -c mpslp-tools -n '__mpslp_tools_at {' '.join(names)}' {option}" for option, names in found.items()
    ]
    return """\
# Completion of mpslp-tools for fish. Made by python/pages.py.

function __mpslp_tools_at
    set -l words (commandline -opc)
    test (count $words) -ge 2; and contains -- $words[2] $argv
end

function __mpslp_tools_first
    test (count (commandline -opc)) = 1
end

complete -c mpslp-tools -f
""" + "".join(
        f"{line}\n" for line in lines
    )


def _fish_option(option: Argument) -> str:
    parts = [f"-s {name}" for name in option.short] + [f"-l {name}" for name in option.long]
    if option.choices:
        parts.append(f"-xa '{' '.join(option.choices)}'")
    elif option.value == _DIRECTORIES:
        parts.append("-xa '(__fish_complete_directories)'")
    elif option.value in _FILES:
        parts.append("-rF")
    elif option.value:
        parts.append("-x")
    text = _capital(option.help).replace("'", "\\'")
    return " ".join([*parts, f"-d '{text}'"])


def _capital(text: str) -> str:
    return text[0].upper() + text[1:] if not text.startswith("-") else text


# ---- the manual page

_HEAD = r""".\" Made by python/pages.py.
.TH MPSLP-TOOLS 1 "" "mpslp {version}" "User Commands"
.SH NAME
mpslp\-tools \- check, rewrite, compare and explain linear and mixed\-integer model files
.SH SYNOPSIS
.B mpslp\-tools
.I COMMAND
[\fIOPTION\fR]... [\fIFILE\fR]...
.br
.B mpslp\-tools
.RB [ \-\-help | \-\-version ]
.SH DESCRIPTION
.B mpslp\-tools
is for everyday work with model files in MPS and LP. It has the commands of the proved program
.BR mpslp (1),
and more around them. What
.B mpslp
reads and writes, it reads and writes with the same proved library; what is around that is tested, and not proved.
It is also
.BR "python3 \-m mpslp" .
.PP
The format of a file is that of its extension:
.B .mps
or
.BR .lp ,
also before
.BR .gz ,
.BR .bz2 ,
.B .xz
or
.BR .zst ,
which are read and written compressed. If the extension does not say it, give
.BR \-f .
A path of
.B \-
is standard input. A directory is all model files in it and below it, without hidden directories. For
.BR canon ,
.B same
and
.BR show ,
a format may come before each path, as for
.BR mpslp :
.B mpslp\-tools canon mps lp plan.mps
is
.BR "mpslp canon mps lp plan.mps" .
"""

_TAIL = r""".SH MESSAGES
Messages about a file are on standard error, and begin with its path and, for an error in a line, the line:
.BR "model.mps:7: DuplicateEntry: column X, row LIM" .
.BR mpslp (1)
lists the kinds of errors with their causes, and
.B mpslp\-tools explain
prints them. A warning, such as
.BR "warning: plan.lp:9: late\-name: prodution first appears in Bounds, as a new column that is in no row" ,
is about what is accepted and rarely meant; it does not change the exit status unless
.B \-Werror
is given. With
.B \-\-json
all that concerns a file is in its JSON on standard output.
.PP
On a terminal, messages are coloured, and a line of progress is shown for what takes more than a second.
The environment variable
.B NO_COLOR
turns colours off.
.SH "EXIT STATUS"
{statuses}.PP
Of several files, the greatest.
.B survey
ends with 0 also if files are rejected.
If the reader of a pipe ends, the command ends by the signal SIGPIPE, without a message.
.SH EXAMPLES
.TP
Which files of a directory are rejected, or not canonical?
.B mpslp\-tools check plans
.TP
Why is a file rejected, and what is to be done?
.B mpslp\-tools explain plan.lp
.TP
Rewrite what another program wrote, and report each change:
.B mpslp\-tools adapt \-\-from pulp \-o plan.lp export.lp
.TP
How do two models differ?
.B mpslp\-tools diff plan.mps export.lp
.TP
Convert a directory to LP, in the same tree:
.B mpslp\-tools canon \-t lp \-\-out\-dir converted plans
.TP
Format a file, and keep its comments:
.B mpslp\-tools fmt \-i plan.lp
.TP
Show with git diff how models differ:
.nf
.B echo \(aq*.lp diff=model\(aq >> .gitattributes
.B git config diff.model.command \(aqf() { mpslp\-tools diff \(dq$2\(dq \(dq$5\(dq || true; }; f\(aq
.fi
.SH "SEE ALSO"
.BR mpslp (1),
.BR git (1).
The documents in
.IR share/doc/mpslp :
README.md, python/README.md, and docs with RECIPES.md for git, pre\-commit and CI,
ERRORS.md, DIALECTS.md and SOLVERS.md.
"""


def manual(commands: dict[str, Words]) -> str:
    statuses = "".join(f".TP\n.B {int(status)}\n{_roff(_sentence(meaning))}\n" for status, meaning in MEANINGS.items())
    parts = [_HEAD.replace("{version}", _mpslp.VERSION), ".SH COMMANDS\n"]
    for name, words in commands.items():
        command = command_of(name)
        parts.append(f".SS \"{_roff(f'{name} {command.USAGE}')}\"\n{_paragraph(command.DESCRIPTION)}")
        parts.append("".join(f".PP\n{_paragraph(text)}" for text in [command.DETAILS] if text))
        parts.append("".join(_manual_option(option) for option in words.options if option.names[0] != "-h"))
    return "".join([*parts, _TAIL.replace("{statuses}", statuses)])


def _manual_option(option: Argument) -> str:
    names = ", ".join(f"\\fB{_roff(name)}\\fR" for name in option.names)
    value = f" \\fI{_roff(option.value)}\\fR" if option.value else ""
    return f".TP\n{names}{value}\n{_roff(_sentence(option.help))}\n"


def _paragraph(text: str) -> str:
    """Lines of a text; one that begins with a period or a quote would be a request."""
    return "".join(f"\\&{_roff(line)}\n" if line[:1] in (".", "'") else f"{_roff(line)}\n" for line in text.split("\n"))


def _roff(text: str) -> str:
    return re.sub(r"[-'\\]", lambda found: {"-": r"\-", "'": r"\(aq", "\\": r"\e"}[found[0]], text)


def _sentence(text: str) -> str:
    return f"{_capital(text)}."


# ---- files


def files() -> Iterator[tuple[Path, str]]:
    """The files, and what is in them."""
    commands = words_of_the_commands()
    yield ROOT / "completions" / "mpslp-tools.bash", bash(commands)
    yield ROOT / "completions" / "_mpslp-tools", zsh(commands)
    yield ROOT / "completions" / "mpslp-tools.fish", fish(commands)
    yield ROOT / "docs" / "mpslp-tools.1", manual(commands)


def main() -> int:
    options = argparse.ArgumentParser(description=__doc__.partition("\n")[0])  # type: ignore[union-attr]
    options.add_argument("--write", action="store_true", help="write the files")
    is_written = options.parse_args().write
    stale = [(path, text) for path, text in files() if not path.exists() or path.read_text() != text]
    for path, text in stale:
        if is_written:
            path.write_text(text)
        print(path.relative_to(ROOT))
    return 0 if is_written or not stale else 1


if __name__ == "__main__":
    sys.exit(main())
