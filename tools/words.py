#!/usr/bin/env python3
"""Writes the manual page, the completions of bash, zsh and fish, and README's table of options from what the program says of itself.

    tools/words.py PROGRAM            writes jx.1, completions/ and the table
    tools/words.py --check PROGRAM    writes nothing, and names those that are old
    tools/words.py --sources          the same as by a program that was built of these sources; also with --check

The help texts stand in crates/jx_command alone. What only the manual page says stands in tools/jx.1.in: a line that begins with
`@` stands there for what is made here, and what follows `@behind WORD`, up to `@end`, is put after the command or the
option of that name.
"""
import collections
import pathlib
import re
import subprocess
import sys

import help_texts

ROOT = pathlib.Path(__file__).resolve().parent.parent
TEMPLATE = ROOT / "tools/jx.1.in"
# The words that an option takes, by the name of its value or by its own. Each other value is a file or a number.
CHOICES = {"WHEN": "auto always never", "FORMAT": "plain gnu json", "--workers": "auto"}
# An option that fewer commands take is one of theirs.
SHARED = 4


# ---- what the program says

class Option:
    """An option, or a word of the command line: its head, as `-q, --quiet` or `[FILE]...`, and what the help says of it."""

    def __init__(self, head):
        self.head = head
        self.flags = re.findall(r"--?[a-zA-Z][a-z-]*", head) if head.startswith("-") else []
        self.name = self.flags[-1] if self.flags else head
        value = re.search(r"[<\[]([A-Z]+)[>\]]", head)
        self.value = value[1] if value else None
        self.paragraphs = []
        self.short, self.default = "", ""


class Command:
    """What the help says of one command, or of the program where the name is empty."""

    def __init__(self, program, name, about=""):
        self.name, self.about, self.usage = name, about, ""
        self.front, self.words, self.options, self.commands, self.after = [], [], [], [], []
        before = [name] if name else []
        self.read(said(program, *before, "--help"))
        self.read_short(said(program, *before, "-h"))

    def read(self, text):
        parts = {"Arguments:": self.words, "Options:": self.options, "Commands:": self.commands}
        part = self.front
        for line in text.rstrip("\n").split("\n"):
            if line.startswith("Usage: "):
                self.usage = line.split(" ", 2)[2]
            elif line in parts:
                part = parts[line]
            elif part is self.words or part is self.options:
                part = self.read_option(part, line)
            elif part is self.commands and line:
                part.append(re.split(" {2,}", line.strip(), maxsplit=1))
            elif part is not self.commands:
                part.append(line)

    def read_option(self, part, line):
        """Reads a line of the lists of words and options. Gives the part that the next line is of."""
        if re.match(r"\S", line):
            self.after.append(line)
            return self.after
        if re.match(r" {2,6}\S", line):
            part.append(Option(line.strip()))
            part[-1].paragraphs.append("")
        elif not line.strip():
            part[-1].paragraphs.append("")
        else:
            part[-1].paragraphs[-1] = (part[-1].paragraphs[-1] + " " + line.strip()).strip()
        return part

    def read_short(self, text):
        for option in self.words + self.options:
            option.paragraphs = [paragraph for paragraph in option.paragraphs if paragraph]
            found = re.search(r"^ +%s  +(.*)$" % re.escape(option.head), text, re.M)
            option.short = re.sub(r" \[default: .*\]| \(see more .*\)|'", "", found[1]) if found else ""
            default = re.search(r"\[default: (.*?)\]", found[1]) if found else None
            option.default = default[1] if default else ""

    def takes_files(self):
        return any(word.value == "FILE" for word in self.words)


def said(program, *words):
    """What a call for help prints on standard error."""
    return subprocess.run([program, *words], stderr=subprocess.PIPE, stdin=subprocess.DEVNULL, text=True).stderr


def commands_of(program, whole):
    return [Command(program, name, about) for name, about in whole.commands if name != "help"]


def kind_of(option):
    """What its value is: `file`, `number`, or the words that it may be."""
    if not option.value:
        return None
    return CHOICES.get(option.name) or CHOICES.get(option.value, "file" if option.value == "FILE" else "number")


def merged(commands, part, key):
    """The options of all commands, each once by its key, with the names of the commands that take it."""
    found = {}
    for command in commands:
        for option in getattr(command, part):
            if option.name != "--help":
                found.setdefault(key(option), (option, []))[1].append(command.name)
    return list(found.values())


def paragraphs_of(lines):
    return [paragraph.split("\n") for paragraph in "\n".join(lines).strip("\n").split("\n\n")]


# ---- the manual page

def roff(text):
    text = text.replace("\\", "\\e").replace("-", "\\-")
    return re.sub(r"^([.'])", r"\\&\1", text)


def bare(head):
    """A value's name without the angle brackets around it."""
    return re.sub(r"<([A-Z]+)>", r"\1", head)


def sentences(text):
    """A line for each sentence."""
    return [roff(line) for line in re.split(r"(?<=\.) (?=[A-Z\[])", text)]


def listed(paragraph):
    """A paragraph of help that has plain lines and lines of two columns: a term, and what it means."""
    out, plain = [], []

    def end_plain():
        if plain:
            out.extend(([".PP"] if out else []) + sentences(" ".join(plain)))
            plain.clear()

    for line in paragraph:
        if not line.startswith("  "):
            plain.append(line)
        elif line.startswith("   "):
            out[-1] += " " + roff(line.strip())
        else:
            end_plain()
            out += [".TP"] + [roff(part) for part in re.split(" {2,}", line.strip(), maxsplit=1)]
    end_plain()
    return out


def section(command, notes, shared):
    """The options of a command that are its own, the names of those that it shares, and what it prints: in the order of its help."""
    out = [".SS jx " + command.name, roff(command.about) + "."]
    takes = command.words + [option for option in command.options if option.name != "--help"]
    for option in takes:
        if text_of(option) not in shared:
            out += described(option, notes) + default_line(option.default)
    others = [option.name for option in takes if text_of(option) in shared]
    if others:
        out += [".PP", "It takes %s%s: see OPTIONS." % (roff(joined(others)), " too" if len(others) < len(takes) else "")]
    for paragraph in paragraphs_of(command.after):
        if paragraph[0] != "Examples:":
            out += [".PP"] + listed(paragraph)
    return out + notes[command.name]


def joined(names):
    return ", ".join(names[:-1]) + " and " + names[-1] if len(names) > 1 else names[0]


def default_of(commands, option, names, quote=""):
    """The default of an option of these commands, and of each that has another one."""
    others = [(command.name, its.default) for command in commands if command.name in names for its in command.options if its.head == option.head and its.default != option.default]
    of = ["of %s %s" % (joined([quote + name + quote for name, its in others if its == default]), default) for default in dict.fromkeys(default for _, default in others)]
    return ", ".join([option.default] + of)


def text_of(option):
    """An option by all that is said of it but its default."""
    return option.head, tuple(paragraph for paragraph in option.paragraphs if not paragraph.startswith("[default: "))


def described(option, notes):
    return [".TP", roff(bare(option.head))] + [line for paragraph in text_of(option)[1] for line in sentences(paragraph)] + notes[option.name]


def default_line(default):
    return [roff("Default: %s." % default)] if default else []


def shared_options(commands):
    """The arguments and options of which several commands say the same, by that text: each with the names of these commands."""
    taken = merged(commands, "words", text_of) + merged(commands, "options", text_of)
    return {text_of(option): (option, names) for option, names in taken if len(names) >= SHARED}


def option_list(commands, notes, shared):
    out = []
    for option, names in shared.values():
        out += described(option, notes) + default_line(option.default and default_of(commands, option, names))
        out.append("For %s." % joined(names))
    return out


def examples(command):
    for paragraph in paragraphs_of(command.after):
        if paragraph[0] == "Examples:":
            return [".PP", ".nf"] + [roff(line.strip()) for line in paragraph[1:]] + [".fi"]
    return []


def statuses(whole):
    return next(listed(paragraph[1:]) for paragraph in paragraphs_of(whole.after) if paragraph[0] == "Exit status:")


def read_template():
    """Its lines, and those to be put after a command or an option."""
    kept, notes = [], collections.defaultdict(list)
    into = kept
    for line in TEMPLATE.read_text().split("\n"):
        if line.startswith("@behind "):
            into = notes[line.partition(" ")[2]]
        elif line == "@end":
            into = kept
        else:
            into.append(line)
    return kept, notes


def page(version, whole, commands):
    kept, notes = read_template()
    shared = shared_options(commands)
    made = {
        "@title": ['.TH JX 1 "" "%s" "User Commands"' % version],
        "@synopsis": [".B " + roff("jx " + bare(command.usage)) for command in commands],
        "@about": [line for paragraph in paragraphs_of(whole.front) for line in [".PP"] + sentences(" ".join(paragraph))][1:],
        "@commands": [line for command in commands for line in section(command, notes, shared)],
        "@options": option_list(commands, notes, shared),
        "@statuses": statuses(whole),
        "@examples": [line for command in [whole] + commands for line in examples(command)][1:],
    }
    return "\n".join(line for kept_line in kept for line in made.get(kept_line, [kept_line]))


# ---- completions

BASH = """\
# Completions of jx for bash. Made by tools/words.py.
_jx() {
    local word=${COMP_WORDS[COMP_CWORD]} before=${COMP_WORDS[COMP_CWORD - 1]} command='' at
    COMPREPLY=()
    for ((at = 1; at < COMP_CWORD; at++)); do
        case ${COMP_WORDS[at]} in
        %(commands)s | help)
            command=${COMP_WORDS[at]}
            break
            ;;
        esac
    done
    case $before in
    %(files)s)
        compopt -o filenames 2>/dev/null
        mapfile -t COMPREPLY < <(compgen -f -- "$word")
        return
        ;;
%(choices)s
    %(numbers)s) return ;;
    esac
    case $command in
    %(takers)s)
        if [[ $word != -* ]]; then
            compopt -o filenames 2>/dev/null
            mapfile -t COMPREPLY < <(compgen -f -- "$word")
            return
        fi
        ;;
    esac
    case $command in
%(offers)s
    esac
}
complete -F _jx jx
"""
BASH_CHOICE = """\
    %s)
        mapfile -t COMPREPLY < <(compgen -W '%s' -- "$word")
        return
        ;;"""
BASH_OFFER = """    %s) mapfile -t COMPREPLY < <(compgen -W '%s' -- "$word") ;;"""


def bash(commands):
    names = [command.name for command in commands]
    flags = collections.defaultdict(set)
    for option, _ in merged(commands, "options", lambda option: option.head):
        flags[kind_of(option)].add(option.name)
    offers = [("''", names + ["help", "-h", "--help", "-V", "--version"]), ("help", names)]
    offers += [(command.name, [flag for option in command.options for flag in option.flags]) for command in commands]
    return BASH % {
        "commands": " | ".join(names),
        "files": " | ".join(sorted(flags["file"])),
        "choices": "\n".join(BASH_CHOICE % (" | ".join(sorted(flags[words])), words) for words in CHOICES.values()),
        "numbers": " | ".join(sorted(flags["number"])),
        "takers": " | ".join(command.name for command in commands if command.takes_files()),
        "offers": "\n".join(BASH_OFFER % (name, " ".join(words)) for name, words in offers),
    }


ZSH = """\
#compdef jx
# Completions of jx for zsh. Made by tools/words.py.
_jx() {
    local context state state_descr line
    typeset -A opt_args
    _arguments -C \\
        '(-h --help)'{-h,--help}'[print help]' \\
        '(-V --version)'{-V,--version}'[print version]' \\
        '1:command:->command' \\
        '*::word:->word'
    case $state in
    command)
        _values command \\
%(commands)s
            'help[print help]'
        ;;
    word)
        case $line[1] in
%(cases)s
        help) _arguments '1:command:(%(names)s)' ;;
        esac
        ;;
    esac
}
_jx "$@"
"""


def begun_small(text):
    return text[:1].lower() + text[1:]


def within_quotes(text):
    """The text between single quotes, as shells read it."""
    return text.replace("'", "'\\''")


def zsh_option(option):
    kind = kind_of(option)
    value = {None: "", "file": ":file:_files", "number": ":number:"}.get(kind, ":word:(%s)" % kind)
    takes = "=" if kind else ""
    told = "[%s]%s'" % (within_quotes(begun_small(option.short)), value)
    if len(option.flags) == 1:
        return "'" + option.name + takes + told
    return "'(%s)'{%s}'%s%s" % (" ".join(option.flags), ",".join(option.flags), takes, told)


def zsh_word(word):
    return "'%s:%s'" % ("*" if word.head.endswith("...") else ":", "file:_files" if word.value == "FILE" else "JSON Pointer:")


def zsh_case(command):
    words = [zsh_option(option) for option in command.options] + [zsh_word(word) for word in command.words]
    return "        %s)\n            _arguments \\\n                %s\n            ;;" % (command.name, " \\\n                ".join(words))


def zsh(commands):
    return ZSH % {
        "commands": "\n".join("            '%s[%s]' \\" % (command.name, within_quotes(begun_small(command.about))) for command in commands),
        "cases": "\n".join(zsh_case(command) for command in commands),
        "names": " ".join(command.name for command in commands),
    }


FISH = """\
# Completions of jx for fish. Made by tools/words.py.
complete -c jx -f
%(commands)s
complete -c jx -n __fish_use_subcommand -a help -d 'Print help'
complete -c jx -n __fish_use_subcommand -s V -l version -d 'Print version'
complete -c jx -s h -l help -d 'Print help'
%(options)s
complete -c jx -n '__fish_seen_subcommand_from %(takers)s' -F
complete -c jx -n '__fish_seen_subcommand_from help' -a '%(names)s'
"""


def fish_option(option, names):
    kind = kind_of(option)
    value = {None: "", "file": " -r -F", "number": " -x"}.get(kind, " -x -a '%s'" % kind)
    letter = " -s " + option.flags[0][1:] if len(option.flags) > 1 else ""
    return "complete -c jx -n '__fish_seen_subcommand_from %s'%s -l %s%s -d '%s'" % (" ".join(names), letter, option.name[2:], value, within_quotes(option.short))


def fish(commands):
    options = merged(commands, "options", lambda option: (option.head, option.short))
    return FISH % {
        "commands": "\n".join("complete -c jx -n __fish_use_subcommand -a %s -d '%s'" % (command.name, within_quotes(command.about)) for command in commands),
        "options": "\n".join(fish_option(option, names) for option, names in options),
        "takers": " ".join(command.name for command in commands if command.takes_files()),
        "names": " ".join(command.name for command in commands),
    }


# ---- README

HEAD = "| Option | Meaning |\n|---|---|\n"


def table(commands):
    """README with a row for each option that several commands take; each command has a row of its own there."""
    rows = []
    for option, names in merged(commands, "options", lambda option: option.head):
        if len(names) >= SHARED:
            words = ", ".join("`%s`" % word for word in bare(option.head).split(", "))
            default = " Default: %s." % default_of(commands, option, names, "`") if option.default else ""
            rows.append("| %s | %s.%s |\n" % (words, option.short, default))
    before, found, behind = (ROOT / "README.md").read_text().partition(HEAD)
    missing = [command.name for command in commands if not re.search(r"^\| `%s[` ]" % command.name, before, re.M)]
    if not found or missing:
        sys.exit("README.md has no row for %s" % (", ".join(missing) or "options"))
    return before + found + "".join(rows) + behind[behind.index("\n\n") + 1:]


def told(program):
    """The version, the program and its commands, by what it prints."""
    version = subprocess.run([program, "--version"], stdout=subprocess.PIPE, text=True).stdout.strip()
    whole = Command(program, "")
    return version, whole, commands_of(program, whole)


def main(words):
    only_check = words[:1] == ["--check"]
    is_by_sources = words[-1] == "--sources"
    version, whole, commands = help_texts.commands() if is_by_sources else told(str(pathlib.Path(words[-1]).resolve()))
    wide = list(help_texts.too_wide(whole, commands)) if is_by_sources else []
    print("".join(line + "\n" for line in wide), end="")
    made = {
        "jx.1": page(version, whole, commands),
        "completions/jx.bash": bash(commands),
        "completions/_jx": zsh(commands),
        "completions/jx.fish": fish(commands),
        "README.md": table(commands),
    }
    old = [name for name, text in made.items() if not (ROOT / name).exists() or (ROOT / name).read_text() != text]
    for name in old:
        if only_check:
            print("%s is old: run tools/words.py %s" % (name, words[-1]))
        else:
            (ROOT / name).write_text(made[name])
    return 1 if wide or only_check and old else 0


if __name__ == "__main__":
    sys.exit(main(sys.argv[1:]))
