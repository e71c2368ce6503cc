"""A manual page and the completions of bash, zsh and fish of a program, made of what its --help prints."""
import re
import subprocess
from pathlib import Path

from releasing.packing import gzipped

HEADS = ("Commands", "Arguments", "Options")


class Help:
    """What `PROGRAM [COMMAND] --help` prints, in its parts."""

    def __init__(self, program, *words):
        ran = subprocess.run([program, *words, "--help"], capture_output=True, text=True, check=True)
        text = ran.stdout
        before, _, behind = text.partition("Usage: ")
        self.about = before.strip()
        self.usage, _, behind = behind.partition("\n")
        self.sections, self.rest = {}, []
        at = None
        for block in behind.strip("\n").split("\n\n"):
            head, _, lines = block.partition("\n")
            if head.rstrip(":") in HEADS:
                at = head.rstrip(":")
                self.sections[at] = rows(lines)
            elif block.startswith("  ") and at:
                # a row of several lines, behind an empty one
                self.sections[at] += rows(block)
            else:
                self.rest.append(block)

    def rows(self, head):
        return self.sections.get(head, [])


def rows(block):
    """The rows of a section: each a word or a flag, and what it is for."""
    found = []
    for line in block.split("\n"):
        if not line.strip():
            continue
        indent = len(line) - len(line.lstrip())
        if found and indent >= 10:
            found[-1][1] = f"{found[-1][1]} {line.strip()}".strip()
        else:
            name, _, about = re.sub(r" {2,}", "\0", line.strip(), count=1).partition("\0")
            found.append([name, about])
    return found


def names_of(flag):
    """The names of an option, as -h and --help."""
    return re.findall(r"(?<![\w<-])--?[A-Za-z][\w-]*", flag)


def takes_value(flag):
    """Whether the option takes a value."""
    return "<" in flag


def values_of(about):
    """The values that the help says are possible."""
    found = re.search(r"\[possible values: ([^\]]*)\]", about)
    return found[1].split(", ") if found else []


class Program:
    """A program and its commands."""

    def __init__(self, path):
        self.name = Path(path).name
        self.help = Help(path)
        names = [name for name, _ in self.help.rows("Commands") if name != "help"]
        self.commands = {name: Help(path, name) for name in names}
        self.abouts = dict(self.help.rows("Commands"))

    def options(self, command):
        """The options of a command: their names, whether they take a value, what they are for, the values."""
        for flag, about in self.commands[command].rows("Options"):
            yield names_of(flag), takes_value(flag), about, values_of(about)


# ---- the page


def roff(text):
    """Text as troff has it."""
    text = text.replace("\\", "\\e").replace("-", "\\-")
    return re.sub(r"^([.'])", r"\\&\1", text, flags=re.M)


def paragraphs(text):
    """Paragraphs; lines that are indented keep their layout."""
    for block in text.split("\n\n"):
        if block.startswith("  "):
            yield from [".PP", ".nf", roff(block), ".fi"]
        elif block.strip():
            yield from [".PP", roff(block)]


def page(program, version, date):
    """The manual page."""
    about = program.help.about
    lines = [
        f'.TH {program.name.upper()} 1 {date} "kuvtsada {version}" "User Commands"',
        ".SH NAME",
        roff(f"{program.name} - {about[0].lower()}{about[1:]}"),
        ".SH SYNOPSIS",
        f".B {roff(program.help.usage)}",
        ".SH COMMANDS",
    ]
    for command in program.commands.values():
        lines += [f".SS {roff(command.usage)}", *list(paragraphs(command.about))[1:]]
        for head in ("Arguments", "Options"):
            for name, what in command.rows(head):
                lines += [".TP", f".B {roff(name)}", roff(what)]
        for block in command.rest:
            lines += paragraphs(block)
    lines.append(".SH OPTIONS")
    for name, what in program.help.rows("Options"):
        lines += [".TP", f".B {roff(name)}", roff(what)]
    lines.append(".SH EXIT STATUS")
    for block in program.help.rest:
        lines += list(paragraphs(block))[1:]
    lines += [".SH SEE ALSO", ".BR watchman (1)", ""]
    return "\n".join(lines)


# ---- completions


def bash(program):
    """bash: commands, then the options of the command, values where they are known, and files."""
    cases, values = [], []
    for command in program.commands:
        words = sorted({name for names, *_ in program.options(command) for name in names})
        cases.append(f"            {command}) words='{' '.join(words)}' ;;")
        for names, _, _, possible in program.options(command):
            if possible:
                values.append(f"        {command}:{names[-1]}) words='{' '.join(possible)}' ;;")
    commands = " ".join([*program.commands, "help"])
    return f"""# bash completion for {program.name}
_{program.name}() {{
    local word=${{COMP_WORDS[COMP_CWORD]}} words=
    COMPREPLY=()
    if [ "$COMP_CWORD" -eq 1 ]; then
        words='{commands} --help --version'
    else
        case ${{COMP_WORDS[1]}}:${{COMP_WORDS[COMP_CWORD - 1]}} in
{chr(10).join(values) or "        :) ;;"}
        *)
            case $word in -*)
            case ${{COMP_WORDS[1]}} in
{chr(10).join(cases)}
            help) words='{commands}' ;;
            esac ;;
            esac ;;
        esac
    fi
    mapfile -t COMPREPLY < <(compgen -W "$words" -- "$word")
}}
complete -o default -F _{program.name} {program.name}
"""


def plain(text):
    """Text that zsh and fish take within their marks: one line, without quotes, brackets and colons."""
    return re.sub(r"['\[\]:\\`$\"]", "", text.split("\n")[0]).strip()


def zsh(program):
    """zsh: the commands and the options, each with what it is for."""
    cases = []
    for command in program.commands:
        specs = []
        for names, takes, about, possible in program.options(command):
            value = f":value:({' '.join(possible)})" if possible else ":value:" if takes else ""
            specs += [f"'{name}[{plain(about)}]{value}'" for name in names]
        cases.append(f"        {command}) _arguments -s {' '.join(specs)} '*:file:_files' ;;")
    described = "\n".join(f"        '{name}:{plain(program.abouts[name])}'" for name in program.commands)
    return f"""#compdef {program.name}
_{program.name}() {{
    local -a commands=(
{described}
        'help:Print the help of a command'
    )
    if (( CURRENT == 2 )); then
        _describe command commands
        return
    fi
    local command=$words[2]
    shift words
    (( CURRENT-- ))
    case $command in
{chr(10).join(cases)}
        help) _describe command commands ;;
    esac
}}
_{program.name} "$@"
"""


def fish(program):
    """fish: the commands and the options, each with what it is for."""
    name = program.name
    lines = [f"complete -c {name} -n __fish_use_subcommand -s h -l help -d 'Print help'"]
    lines.append(f"complete -c {name} -n __fish_use_subcommand -s V -l version -d 'Print version'")
    for command in program.commands:
        about = plain(program.abouts[command])
        lines.append(f"complete -c {name} -n __fish_use_subcommand -f -a {command} -d '{about}'")
    for command in program.commands:
        for names, takes, about, possible in program.options(command):
            flags = " ".join(f"-l {it[2:]}" if it.startswith("--") else f"-s {it[1:]}" for it in names)
            value = f" -x -a '{' '.join(possible)}'" if possible else " -r" if takes else ""
            when = f"-n '__fish_seen_subcommand_from {command}'"
            lines.append(f"complete -c {name} {when} {flags}{value} -d '{plain(about)}'")
    return "\n".join(lines) + "\n"


def write(path, share, version, date):
    """Writes the page and the completions of a program below the folder `share`."""
    program = Program(path)
    made = {
        f"man/man1/{program.name}.1.gz": gzipped(page(program, version, date).encode()),
        f"bash-completion/completions/{program.name}": bash(program).encode(),
        f"zsh/site-functions/_{program.name}": zsh(program).encode(),
        f"fish/vendor_completions.d/{program.name}.fish": fish(program).encode(),
    }
    for name, content in made.items():
        file = Path(share, name)
        file.parent.mkdir(parents=True, exist_ok=True)
        file.write_bytes(content)
