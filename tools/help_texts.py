"""What the program says of itself, read from the rows and texts of crates/jx_command/src: the same as its help, before it is built.

The classes have the attributes that tools/words.py reads. `too_wide` gives lines of the help that a terminal would cut.
"""
import pathlib
import re

SOURCES = pathlib.Path(__file__).resolve().parent.parent / "crates/jx_command/src"
COLUMNS = 79
CONSTANT = r"^(?:pub(?:\(crate\))? )?const (\w+): %s =\s*"


def texts():
    """The constants of help.rt by their names."""
    found = {}
    for name, text in re.findall(CONSTANT % "&str" + r'"((?:[^"\\]|\\.)*)";', (SOURCES / "help.rt").read_text(), re.M):
        found[name] = re.sub(r'\\(["\\])', r"\1", text)
    return found


def row_of(text, named, said):
    """The fields of an `ArgRow { .. }`, with those of the row that it is made from; or those of a row that is named."""
    base = re.search(r"(?:\.\.|^)(?:option::)?(\w+),?\s*\}?\s*$", text)
    row = dict(named.get(base[1], {})) if base else {}
    for field, value in re.findall(r"^\s*(\w+): (.*?),$", text, re.M):
        constant = re.fullmatch(r"help::(\w+)", value)
        quoted = re.search(r'"(.*?)"', value)
        row[field] = said[constant[1]] if constant else quoted[1] if quoted else value
        if field == "form":
            row["value"], row["is_word"] = quoted[1] if quoted else "", value.startswith("Form::Word")
    if "rules:" in text:
        row["rules"] = dict(re.findall(r"""Rule::(\w+)(?:\(["']?([^"'()]*)["']?\))?""", text.partition("rules:")[2]))
    return row


def rows(said):
    """The rows of option_rows.rt by their names."""
    named = {}
    for name, body in re.findall(CONSTANT % "ArgRow" + r"ArgRow (\{.*?^\});", (SOURCES / "option_rows.rt").read_text(), re.M | re.S):
        named[name] = row_of(body, named, said)
    return named


# Each command has the first, and the program both.
HELP = {
    "name": "help",
    "help": "Print help (see more with '--help')",
    "long_help": "Print help (see a summary with '-h')",
    "rules": {"Short": "h"},
}

VERSION = {"name": "version", "help": "Print version", "long_help": "Print version", "rules": {"Short": "V"}}


class Option:
    """An option or an argument by its row."""

    def __init__(self, row):
        value, rules = row.get("value", ""), row["rules"]
        self.value = value
        self.flags = [] if row.get("is_word") else ["--" + row["name"]]
        if "Short" in rules:
            self.flags.insert(0, "-" + rules["Short"])
        self.is_required = "Required" in rules
        if self.flags:
            self.head = ", ".join(self.flags) + (" <%s>" % value if value else "")
        else:
            self.head = "[%s]%s" % (value, "..." if "Several" in rules else "")
        self.name = self.flags[-1] if self.flags else self.head
        self.default = {"AUTO": "auto"}.get(rules.get("Default"), rules.get("Default", ""))
        # As `-h` and `--help` print it.
        self.summary = row["help"] + (" [default: %s]" % self.default if self.default else "")
        self.lines = row["long_help"].split("\n")
        self.short = re.sub(r" \(see more .*\)|'", "", row["help"])
        self.paragraphs = [" ".join(paragraph.split("\n")) for paragraph in row["long_help"].split("\n\n")]


class Command:
    """A command by its row; the program where the name is empty."""

    def __init__(self, name, about, after, taken):
        self.name, self.about, self.after = name, about, after.split("\n")
        self.words = [option for option in taken if not option.flags]
        self.options = [option for option in taken if option.flags] + [Option(HELP)]
        needed = [option.head.rpartition(", ")[2] for option in self.options if option.is_required]
        some = ["[OPTIONS]"] if len(needed) + 1 < len(self.options) else []
        self.usage = " ".join([name] + some + needed + [word.head for word in self.words])
        self.front, self.commands, self.short_after = [], [], []

    def takes_files(self):
        return any(word.value == "FILE" for word in self.words)


def commands():
    """The version, the program, and its commands."""
    said = texts()
    named = rows(said)
    found = []
    source = (SOURCES / "command_rows.rt").read_text()
    for body in re.findall(CONSTANT % "CommandRow" + r"CommandRow \{(.*?)^\};", source, re.M | re.S):
        fields, _, args = body[1].partition("args: ")
        taken = [row_of(one, named, said) for one in re.findall(r"ArgRow \{.*?\}|option::\w+", args, re.S)]
        row = row_of(fields, {}, said)
        found.append(Command(row["name"], row["about"], row["after"], [Option(one) for one in taken]))
    whole = Command("", said["ABOUT"], said["LONG_AFTER"], [])
    whole.usage, whole.options = "<COMMAND>", [Option(HELP), Option(VERSION)]
    whole.front, whole.short_after = said["LONG_ABOUT"].split("\n"), said["AFTER"].split("\n")
    whole.commands = [[command.name, command.about] for command in found]
    return "jx " + said["VERSION"], whole, found


def columns(heads, texts):
    """The lines of a list in the help of `-h`: each text begins behind the longest head."""
    width = max(map(len, heads), default=0)
    return ["  %-*s  %s" % (width, head, text) for head, text in zip(heads, texts)]


def printed(command):
    """The lines of the help on a command, by `-h` and by `--help`."""
    yield from [command.about, "Usage: jx " + command.usage, *command.front, *command.after, *command.short_after]
    yield from columns([word.head for word in command.words], [word.summary for word in command.words])
    heads = [option.head if len(option.flags) > 1 else "    " + option.head for option in command.options]
    yield from columns(heads, [option.summary for option in command.options])
    yield from columns([name for name, _ in command.commands], [about for _, about in command.commands])
    for option in command.words + command.options:
        yield from ["          " + line for line in option.lines]


def too_wide(whole, found):
    """The lines of the help that have too many columns, each with its command."""
    for command in [whole, *found]:
        for line in printed(command):
            if len(line) > COLUMNS:
                yield "jx %s: a line of the help has %d columns: %s" % (command.name, len(line), line)
