#!/usr/bin/env python3
"""Writes completions of a program's words for bash, zsh and fish, from what it prints for --help.

    packaging/completions.py NAME PROGRAM FOLDER

NAME is what the program is called by. FOLDER gets bash-completion/completions/NAME, zsh/site-functions/_NAME and
fish/vendor_completions.d/NAME.fish, which is where the shells look below PREFIX/share.
"""
from __future__ import annotations

import argparse
import pathlib
import re

import helptext

# Names of values that are files.
FILES = re.compile(r"FILE|PATH|IMAGE|DIGEST|SOCKET", re.I)


def quoted(text: str) -> str:
    """A text as one word of a shell."""
    return "'" + text.replace("'", "'\\''") + "'"


def short(text: str) -> str:
    """What is said of an option, in one line without its defaults."""
    return re.sub(r"\s*\[(default|possible values|env)[^\]]*\]", "", text).strip()


def is_file(value: str | None) -> bool:
    return value is not None and bool(FILES.search(value))


def takes_files(help_: helptext.Help) -> bool:
    return any(is_file(it.term) for it in help_.arguments()) or any(FILES.search(re.sub(r"\[OPTIONS\]", "", it)) for it in help_.usage)


def bash_case(name: str, help_: helptext.Help) -> list[str]:
    """The words of one command: its options, the words behind one, and whether files follow."""
    flags = " ".join(flag for it in help_.options() for flag in it.flags())
    values = []
    for option in help_.options():
        pattern = "|".join(option.flags())
        if option.choices():
            values.append(f"                {pattern}) COMPREPLY=($(compgen -W {quoted(' '.join(option.choices()))} -- \"$word\")); return ;;")
        elif is_file(option.value()):
            values.append(f"                {pattern}) COMPREPLY=($(compgen -f -- \"$word\")); return ;;")
        elif option.value():
            values.append(f"                {pattern}) return ;;")
    lines = [f"        {name})"]
    if values:
        lines += ['            case "$before" in', *values, "            esac"]
    lines += [f"            flags={quoted(flags)}"]
    if takes_files(help_):
        lines += ["            files=1"]
    return [*lines, "            ;;"]


def bash(name: str, top: helptext.Help, commands: dict[str, helptext.Help]) -> str:
    words = " ".join([*commands, *(["help"] if commands else [])])
    function = "_" + name.replace("-", "_")
    lines = [
        f"# Completion of {name} for bash.",
        f"{function}() {{",
        '    local word="${COMP_WORDS[COMP_CWORD]}" before="" command="" flags="" files="" at',
        "    COMPREPLY=()",
        '    [ "$COMP_CWORD" -gt 0 ] && before="${COMP_WORDS[COMP_CWORD - 1]}"',
        "    for ((at = 1; at < COMP_CWORD; at++)); do",
        '        case "${COMP_WORDS[at]}" in',
        "            -*) ;;",
        '            *) command="${COMP_WORDS[at]}"; break ;;',
        "        esac",
        "    done",
        '    case "$command" in' if commands else "    case ''  in",
    ]
    for command, help_ in commands.items():
        lines += bash_case(command, help_)
    if commands:
        lines += [f"        help) COMPREPLY=($(compgen -W {quoted(' '.join(commands))} -- \"$word\")); return ;;"]
        flags = " ".join(flag for it in top.options() for flag in it.flags())
        lines += [f"        '') COMPREPLY=($(compgen -W {quoted(f'{words} {flags}')} -- \"$word\")); return ;;"]
    else:
        lines += bash_case("''", top)
    lines += [
        "    esac",
        '    case "$word" in',
        '        -*) COMPREPLY=($(compgen -W "$flags" -- "$word")) ;;',
        '        *) [ -n "$files" ] && COMPREPLY=($(compgen -f -- "$word")) ;;',
        "    esac",
        "}",
        f"complete -o filenames -F {function} {name}",
    ]
    return "\n".join(lines) + "\n"


def zsh_specs(help_: helptext.Help) -> list[str]:
    """The specifications of _arguments for options and arguments."""
    specs = []
    for option in help_.options():
        said = short(option.text).replace("\\", "").replace("[", "\\[").replace("]", "\\]").replace(":", "\\:")
        value = option.value()
        behind = ""
        if value:
            what = f"({' '.join(option.choices())})" if option.choices() else "_files" if is_file(value) else " "
            behind = f":{value.replace(':', ' ')}:{what}"
        names = option.flags()
        others = f"({' '.join(names)})" if len(names) > 1 else ""
        specs += [quoted(f"{others}{flag}[{said}]{behind}") for flag in names]
    if takes_files(help_):
        specs.append(quoted("*:file:_files"))
    return specs


def zsh(name: str, top: helptext.Help, commands: dict[str, helptext.Help]) -> str:
    lines = [f"#compdef {name}", f"# Completion of {name} for zsh.", ""]
    if not commands:
        return "\n".join([*lines, "_arguments \\", " \\\n".join(f"    {it}" for it in zsh_specs(top))]) + "\n"
    lines += ["local curcontext=$curcontext state line", "local -a commands", "commands=("]
    for command, help_ in commands.items():
        lines.append("    " + quoted(f"{command}:{short(help_.about)}"))
    lines += ["    'help:Print help'", ")"]
    specs = [*zsh_specs(top._replace(usage=[])), "'1:command:->command'", "'*::word:->words'"]
    lines += ["_arguments -C \\", " \\\n".join(f"    {it}" for it in specs), 'case "$state" in', "command) _describe command commands ;;"]
    lines += ["words)", "    case $line[1] in"]
    for command, help_ in commands.items():
        lines += [f"    {command})", "        _arguments \\", " \\\n".join(f"            {it}" for it in zsh_specs(help_)), "        ;;"]
    lines += [f"    help) compadd -- {' '.join(commands)} ;;", "    esac", "    ;;", "esac"]
    return "\n".join(lines) + "\n"


def fish_options(name: str, help_: helptext.Help, condition: list[str]) -> list[str]:
    lines = []
    for option in help_.options():
        words = [f"complete -c {name}", *condition]
        for flag in option.flags():
            words.append(f"-l {flag[2:]}" if flag.startswith("--") else f"-s {flag[1:]}")
        if option.value():
            words.append("-r" if is_file(option.value()) else "-x")
        if option.choices():
            words.append(f"-a {quoted(' '.join(option.choices()))}")
        lines.append(" ".join([*words, f"-d {quoted(short(option.text))}"]))
    return lines


def fish(name: str, top: helptext.Help, commands: dict[str, helptext.Help]) -> str:
    lines = [f"# Completion of {name} for fish.", f"complete -c {name} -f"]
    if not commands:
        return "\n".join([*lines, *fish_options(name, top, [])]) + "\n"
    for command, help_ in commands.items():
        lines.append(f"complete -c {name} -n __fish_use_subcommand -a {command} -d {quoted(short(help_.about))}")
    lines += fish_options(name, top, ["-n __fish_use_subcommand"])
    for command, help_ in commands.items():
        seen = f"-n {quoted(f'__fish_seen_subcommand_from {command}')}"
        lines += fish_options(name, help_, [seen])
        if takes_files(help_):
            lines.append(f"complete -c {name} {seen} -F")
    return "\n".join(lines) + "\n"


def main() -> None:
    options = argparse.ArgumentParser(description=__doc__.splitlines()[0])
    options.add_argument("name", metavar="NAME", help="what the program is called by")
    options.add_argument("program", metavar="PROGRAM")
    options.add_argument("folder", metavar="FOLDER", type=pathlib.Path, help="the folder that gets the completions, such as PREFIX/share")
    given = options.parse_args()
    top = helptext.of(given.program)
    commands = {it.term.split()[0]: helptext.of(given.program, it.term.split()[0]) for it in top.commands()}
    written = {
        f"bash-completion/completions/{given.name}": bash,
        f"zsh/site-functions/_{given.name}": zsh,
        f"fish/vendor_completions.d/{given.name}.fish": fish,
    }
    for path, shell in written.items():
        file = given.folder / path
        file.parent.mkdir(parents=True, exist_ok=True)
        file.write_text(shell(given.name, top, commands))


if __name__ == "__main__":
    main()
