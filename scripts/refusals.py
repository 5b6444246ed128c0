"""The tables of docs/REFUSALS.md and the forms of docs/FORMATS.md, for explain.py.

What a refusal means and how it is mended stands in these documents alone. Here it is only found: the rows
whose line has the same first word, the same cause and its fault at the same word.
"""
import os
import re

COMMAND = "SUB FLAGS START SCAN_BEGIN CONVERT SCAN_END STOP LIST".split()
TRIGGERS = COMMAND[2:7]
KINDS = ("read", "write", "bits", "config", "gtod", "inttrig")
# Which lines of a session each section of the rows of `err` is about, where a row names none itself.
SECTIONS = {"Instructions": ("insn read", "insn write", "insn bits", "insn config"), "Commands": ("cmd",),
            "Buffers of inputs": ("read", "map"), "Buffers of outputs": ("write", "fill")}


class Row:
    """A row of a table of REFUSALS.md: what gives the refusal, its lines, its answer, and the repaired lines."""

    def __init__(self, section, table, cells, repaired):
        self.section, self.table, self.what, self.answer = section, table, cells[0], spans(cells[2])[0]
        self.lines, self.repaired = spans(cells[1]), repaired


def spans(cell):
    return re.findall(r"`([^`]*)`", cell)


def tables(path):
    """The rows of all tables of a document: its section, the name of a table of rows, its head, and the cells."""
    section = name = head = None
    with open(path, encoding="utf-8") as file:
        for line in file:
            line = line.rstrip("\n")
            rows = re.match(r"<!-- rows (\w+) -->", line)
            if line.startswith("#"):
                section, name = line.lstrip("# "), None
            elif rows:
                name = rows.group(1)
            elif not line.startswith("|"):
                name, head = (name if head is None else None), None
            elif not line.startswith("|---"):
                cells = [part.replace("\\|", "|").strip() for part in re.split(r"(?<!\\)\|", line)[1:-1]]
                if head is None:
                    head = cells
                else:
                    yield section, name, head, cells


def key_of(words):
    """The word that says what a line is: its first, of a line of a session its second, of `insn` its kind too."""
    if len(words) > 1 and (words[0] == "T" or re.match(r"[-+]?\d", words[0])):
        if words[1] == "insn":
            return " ".join(["insn"] + [word for word in words[4:5]])
        return words[1]
    return words[0] if words else ""


class Texts:
    """What the documents say of causes, steps, error numbers and rules, their rows, and the forms of lines."""

    def __init__(self, folder):
        self.causes, self.steps, self.errors, self.rules, self.silent, self.words = {}, {}, {}, {}, {}, {}
        self.faults, self.plays, self.forms, self.hidden = [], [], [], ""
        self.read_refusals(os.path.join(folder, "REFUSALS.md"))
        self.read_formats(os.path.join(folder, "FORMATS.md"))

    def read_refusals(self, path):
        named = {"Cause": self.causes, "Step": self.steps, "Number": self.errors, "#": self.rules,
                 "What": self.silent}
        repaired = []
        for section, name, head, cells in tables(path):
            if name:
                repaired = repaired if cells[3] == "as above" else spans(cells[3])
                (self.plays if name == "play" else self.faults).append(Row(section, name, cells, repaired))
            elif head[0] in named:
                named[head[0]][cells[0]] = cells[1:]
        with open(path, encoding="utf-8") as file:
            self.hidden = re.search(r"^A line that is BadLine and looks good.*", file.read(), re.M).group()

    def read_formats(self, path):
        for section, _, head, cells in tables(path):
            if head[0] == "Line" and spans(cells[0]) and not section.startswith("A dialogue"):
                said = [cell for title, cell in zip(head, cells) if title in ("What it says", "What it does", "Limits")]
                if not said and "Example" in head:
                    said = ["as " + cells[head.index("Example")]]
                if said:
                    self.forms.append((spans(cells[0])[0], "; ".join(text for text in said if text)))
            elif head[0] == "Word" and head[1] == "What it says":
                self.words[spans(cells[0])[0] if spans(cells[0]) else cells[0]] = "; ".join(cells[1:3])
        with open(path, encoding="utf-8") as file:
            for form in re.findall(r"^A line `((?:test|expand) [A-Z ]+)`", file.read(), re.M):
                self.forms.append((form, "COMMAND is `%s`" % " ".join(COMMAND)))

    def forms_of(self, words):
        """The forms of a line's kind, the one whose fixed words are the line's before the others."""
        key = key_of(words)
        made = [form for form in self.forms if key_of(form[0].split()) == key]
        if not made and key.startswith("insn"):
            made = [form for form in self.forms if " insn " in form[0]]
        fixed = lambda form: sum(1 for name, word in zip(form[0].split()[1:], words[1:])
                                 if name.islower() and name != word)
        made.sort(key=fixed)
        return [form for form in made if fixed(form) == fixed(made[0])] if made else []

    def names(self, words):
        """A name for each word of a line, as its form has it, and for those of a command; `+` for one too many."""
        forms = self.forms_of(words)
        made = []
        for name in forms[0][0].split() if forms else ["KEY"]:
            made += COMMAND if name.endswith("COMMAND") else [name]
        if made[-1].endswith(".."):
            made[-1] = made[-1][:-2]
            made += made[-1:] * (len(words) - len(made))
        return made + ["+"] * (len(words) - len(made))

    def wanted(self, words):
        """How many words the form of a line has: the least, and whether there may be more."""
        forms = self.forms_of(words)
        if not forms:
            return None
        names = forms[0][0].split()
        return sum(8 if name.endswith("COMMAND") else 1 for name in names), names[-1].endswith("..")

    def atoms(self, line):
        """The places of a line that are checked one by one: each with its name, its first and its last column."""
        words = line.split()
        names, made = self.names(words), []
        for at, found in enumerate(re.finditer(r"\S+", line)):
            name = names[at]
            parts = (":" if name in TRIGGERS else ",/" if name in ("LIST", "ENTRY") else
                     "," if name == "VALUES" else "")
            pieces = re.finditer("[^%s]+" % parts, found.group()) if parts else [re.match(".*", found.group())]
            for number, piece in enumerate(pieces):
                own = name + {",/": ".%d" % (number % 3), ":": ".%d" % number}.get(parts, "")
                made.append((own, found.start() + piece.start(), found.start() + piece.end()))
        return made

    def form_fault(self, line):
        """The place of a byte that may not stand there, of a word too many, or of a trigger or an entry in parts."""
        bad = re.search(r"[^\t\r -~]", line)
        if bad:
            return "byte", bad.start(), bad.end()
        words = line.split()
        for name, found in zip(self.names(words), re.finditer(r"\S+", line)):
            entries = found.group().split(",") if name in ("LIST", "ENTRY") and found.group() != "-" else []
            if name == "+" or name in TRIGGERS and words[0] != "sources" and found.group().count(":") != 1 or \
                    any(entry.count("/") != 2 for entry in entries):
                return name, found.start(), found.end()
        return None

    def fault_of(self, row):
        """The name of the place at which a row's last line isn't its repaired one, and what stands there."""
        if not row.lines or not row.repaired:
            return None, None
        line, good = [text.split(";")[-1].strip() for text in (row.lines[0], row.repaired[-1])]
        if row.answer.endswith("BadLine") and self.form_fault(line):
            name, start, end = self.form_fault(line)
            return name, line[start:end]
        said, wanted = self.atoms(line), self.atoms(good)
        for at, (name, start, end) in enumerate(said):
            if at == len(wanted) or line[start:end] != good[wanted[at][1]:wanted[at][2]]:
                return name, line[start:end]
        return None, None

    def rows_of(self, cause, words, place, word):
        """The rows of a refusal, the nearest first: same kind of line and same place, else what looks alike."""
        made = []
        for row in self.faults:
            if row.answer.split()[-1] != cause or not row.lines:
                continue
            name, other = self.fault_of(row)
            own = key_of(row.lines[0].split()) == key_of(words) or key_of(row.repaired[0].split()) == key_of(words)
            same = name is not None and plain(name) == plain(place)
            common = same and (name == "byte" or name.split(".")[0] in COMMAND or
                               name in ("T", "F") and words[0][0].isdigit() and row.lines[0][0].isdigit())
            alike = shape(other) == shape(word) if cause == "BadNumber" and word is not None else same
            if own or common or cause == "BadNumber" and alike:
                form = self.forms_of(row.lines[0].split()) == self.forms_of(words)
                made.append((4 * alike + 3 * (own and same) + 2 * own + 2 * common + (own and form), row))
        best = max((rank for rank, _ in made), default=0)
        return [row for rank, row in made if rank == best]

    def plays_of(self, number, key):
        """The rows of an `err` of a line of a session."""
        made = []
        for row in self.plays:
            head = re.match(r"(\d+) \w+(?:, of ([^:]*))?(?:, step \d)?: ", row.what)
            if not head or head.group(1) != number:
                continue
            last = key_of(row.lines[0].split(";")[-1].split())
            if head.group(2):
                named = spans(head.group(2))
                fits = key.split()[-1] in named and key.startswith("insn") == (row.section == "Instructions")
                fits = fits or row.section == "Checks of each line" and key in named
            else:
                fits = row.section == "Checks of each line" or key == last or key in SECTIONS.get(row.section, ())
            if fits:
                made.append(row)
        return made


def plain(place):
    """The name of a place, the same for all five triggers."""
    return re.sub("^(%s)" % "|".join(TRIGGERS), "TRIGGER", place or "")


def shape(word):
    """What is wrong with a word that should be a number, as one word."""
    kinds = (("hexadecimal", r"0[xX]"), ("zero", r"-?0\d+$"), ("plus", r"\+"), ("minus", r"-\d+$"),
             ("commas", r"\d+[,_]"), ("point", r"\d*\.\d|\d+e\d"), ("unit", r"\d+[a-zA-Z]"), ("digits", r"\d{19}"))
    for name, form in kinds:
        if word is not None and re.match(form, word):
            return name
    return "word"
