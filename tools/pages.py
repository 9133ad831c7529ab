"""Writes the man page and the shells' completions, all from the program's own texts.

    python3 tools/pages.py PROGRAM FOLDER

FOLDER gets share/man/man1/earliest.1, share/bash-completion/completions/earliest,
share/zsh/site-functions/_earliest and share/fish/vendor_completions.d/earliest.fish. No command or option is
written here, so they can't differ from the help.
"""
import os
import re
import subprocess
import sys


def said(program, *words):
    """What the program says on standard output."""
    return subprocess.run([program, *words], stdin=subprocess.DEVNULL, stdout=subprocess.PIPE, check=True, text=True).stdout


def parts(text):
    """The parts of a help text: what precedes `Usage:`, the usage, the named lists, and what follows them."""
    about, _, rest = text.partition("\nUsage: ")
    usage, _, rest = rest.partition("\n")
    lists, after, name = {}, [], None
    for line in rest.splitlines():
        if re.fullmatch(r"(Arguments|Options|Commands):", line):
            name = line[:-1]
            lists[name] = []
        elif name and line.startswith("  "):
            item = re.fullmatch(r"\s+(\S.*?)(?:\s{2,}(\S.*))?", line)
            lists[name].append((item[1], item[2] or ""))
        elif name and not line:
            name = None
        elif line or after:
            after.append(line)
        if name is None and line.startswith("  "):
            after[-1] = line
    return about.strip(), usage, lists, "\n".join(after).strip("\n")


def commands(program):
    """The commands in their order: name and parts of their help."""
    top = parts(said(program, "--help"))
    return top, [(name, parts(said(program, name, "--help"))) for name, _ in top[2]["Commands"] if name != "help"]


def options(lists):
    """The options of a command: its long name, its letter, whether it has a value, and what it does."""
    for flags, does in lists["Options"]:
        found = re.fullmatch(r"(?:-(\w), )?--([\w-]+)(?: <(\w+)>)?", flags)
        yield found[2], found[1], found[3], does


def escaped(text):
    """A text as the man page has it."""
    return "\n".join(("\\&" if line[:1] in (".", "'") else "") + line for line in text.replace("\\", "\\e").replace("-", "\\-").splitlines())


def literal(text):
    """A text that is shown unchanged."""
    return f".nf\n{escaped(text)}\n.fi\n"


def man(program):
    """The man page."""
    top, each = commands(program)
    page = f'.TH EARLIEST 1 "" "{said(program, "--version").strip()}"\n.SH NAME\nearliest \\- {escaped(top[0][0].lower() + top[0][1:])}\n.SH SYNOPSIS\n'
    for _, (_, usage, _, _) in each:
        page += f".B {escaped(usage)}\n.br\n"
    page += f".SH DESCRIPTION\n{escaped(top[0])}.\n.PP\n{literal(top[3])}.SH COMMANDS\n"
    for _, (about, usage, lists, more) in each:
        page += f".SS {escaped(usage)}\n{escaped(about)}.\n"
        for item, does in lists.get("Arguments", []) + lists["Options"]:
            page += f".TP\n.B {escaped(item)}\n{escaped(does)}\n"
        if more:
            page += f".PP\n{literal(more)}"
    page += f".SH FORMATS\n{literal(said(program, 'formats').strip())}.SH FAULTS\n{literal(said(program, 'explain').rstrip())}"
    return page


def quoted(text):
    """A text as a shell takes it in single quotes."""
    return "'" + text.replace("'", "'\\''") + "'"


def bash(program):
    """The completion of bash."""
    _, each = commands(program)
    arms = "".join(f"        {name}) words={quoted(' '.join('--' + long for long, _, _, _ in options(lists)))} ;;\n" for name, (_, _, lists, _) in each)
    names = quoted(" ".join(name for name, _ in each))
    return (
        "_earliest() {\n    local words word=${COMP_WORDS[COMP_CWORD]}\n    COMPREPLY=()\n"
        f"    if [ \"$COMP_CWORD\" = 1 ]; then\n        COMPREPLY=($(compgen -W {names} -- \"$word\"))\n        return\n    fi\n"
        f"    case ${{COMP_WORDS[1]}} in\n{arms}        *) words= ;;\n    esac\n"
        "    case $word in\n        -*) COMPREPLY=($(compgen -W \"$words\" -- \"$word\")) ;;\n        *) COMPREPLY=($(compgen -f -- \"$word\")) ;;\n    esac\n}\n"
        "complete -o filenames -F _earliest earliest\n"
    )


def zsh(program):
    """The completion of zsh."""
    _, each = commands(program)
    def spec(long, value, does):
        does = does.replace("\\", "").replace("[", "\\[").replace("]", "\\]").replace(":", "\\:")
        files = ":file:_files" if value == "FILE" else f":{value}:" if value else ""
        return quoted(f"--{long}[{does}]{files}")
    names = " ".join(quoted(f"{name}:{about}".replace("\n", " ")) for name, (about, _, _, _) in each)
    arms = "".join(f"        {name}) _arguments {' '.join(spec(long, value, does) for long, _, value, does in options(lists))} '*:file:_files' ;;\n" for name, (_, _, lists, _) in each)
    return f"#compdef earliest\n_earliest() {{\n    if (( CURRENT == 2 )); then\n        local -a names=({names})\n        _describe command names\n        return\n    fi\n    local name=$words[2]\n    shift words\n    (( CURRENT-- ))\n    case $name in\n{arms}    esac\n}}\n_earliest \"$@\"\n"


def fish(program):
    """The completion of fish."""
    _, each = commands(program)
    lines = [f"complete -c earliest -n __fish_use_subcommand -f -a {name} -d {quoted(about)}" for name, (about, _, _, _) in each]
    for name, (_, _, lists, _) in each:
        for long, letter, value, does in options(lists):
            short = f" -s {letter}" if letter else ""
            wanted = " -r -F" if value == "FILE" else " -x" if value else ""
            lines.append(f"complete -c earliest -n '__fish_seen_subcommand_from {name}' -l {long}{short}{wanted} -d {quoted(does)}")
    return "\n".join(lines) + "\n"


PAGES = {
    "share/man/man1/earliest.1": man,
    "share/bash-completion/completions/earliest": bash,
    "share/zsh/site-functions/_earliest": zsh,
    "share/fish/vendor_completions.d/earliest.fish": fish,
}


def write_all(program, folder):
    """Writes all pages."""
    for place, page in PAGES.items():
        path = os.path.join(folder, place)
        os.makedirs(os.path.dirname(path), exist_ok=True)
        with open(path, "w", encoding="utf-8") as file:
            file.write(page(os.path.abspath(program)))


if __name__ == "__main__":
    write_all(sys.argv[1], sys.argv[2])
