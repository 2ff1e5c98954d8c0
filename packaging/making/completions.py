"""Completions of a command for bash, zsh and fish, by the options that it says it has."""

from collections.abc import Sequence

from .help_text import Option


def in_quotes(text: str) -> str:
    """A text as a word of a shell."""
    return "'" + text.replace("'", "'\\''") + "'"


def bash_value(option: Option) -> str:
    """What completes the value of an option in bash."""
    if option.is_file():
        return "_filedir"
    choices = " ".join(option.choices())
    return f'COMPREPLY=($(compgen -W {in_quotes(choices)} -- "$cur"))' if choices else ":"


def bash(command: str, options: Sequence[Option]) -> str:
    cases = (
        f"        {it.name})\n            {bash_value(it)}\n            return\n            ;;\n"
        for it in options
        if it.value
    )
    names = " ".join(it.name for it in options)
    return f"""\
# Completion of {command} in bash.
_{command}()
{{
    local cur prev words cword split
    _init_completion -s || return
    case $prev in
{''.join(cases)}    esac
    $split && return
    if [[ $cur == -* && " ${{words[*]:1:cword-1}} " != *" -- "* ]]; then
        COMPREPLY=($(compgen -W {in_quotes(names)} -- "$cur"))
        return
    fi
    _filedir
}} &&
    complete -F _{command} {command}
"""


def zsh_option(option: Option) -> str:
    """An option as _arguments of zsh reads it."""
    about = "".join(f"\\{sign}" if sign in "[]:\\" else sign for sign in option.about)
    if not option.value:
        return in_quotes(f"{option.name}[{about}]")
    choices = " ".join(option.choices())
    action = "_files" if option.is_file() else f"({choices})" if choices else " "
    return in_quotes(f"*{option.name}=[{about}]:{'value' if choices else option.value}:{action}")


def zsh(command: str, options: Sequence[Option]) -> str:
    words = " \\\n    ".join(["_arguments", *map(zsh_option, options), "'*:file:_files'"])
    return f"#compdef {command}\n# Completion of {command} in zsh.\n\n{words}\n"


def fish_option(command: str, option: Option) -> str:
    words = ["complete", "-c", command, "-l", option.name.removeprefix("--")]
    if option.value:
        words += ["-r", "-F"] if option.is_file() else ["-x"]
    if option.choices():
        words += ["-a", in_quotes(" ".join(option.choices()))]
    about = option.about.replace("\\", "\\\\").replace("'", "\\'")
    return " ".join([*words, "-d", f"'{about}'"])


def fish(command: str, options: Sequence[Option]) -> str:
    lines = (f"{fish_option(command, it)}\n" for it in options)
    return f"# Completion of {command} in fish.\n{''.join(lines)}"
