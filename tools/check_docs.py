#!/usr/bin/env python3
"""Checks what the documents promise about the files of the repository. Each promise that is broken is told in one line.

    tools/check_docs.py

Names and numbers of documents are compared with those of the code: definitions in both directions, the contracts of
docs/PROVED.md, links, commands, options and defaults, and the names of the crates. Nothing here reads the sense of a
sentence. A reader has to see whether a row says what its definition means.
"""
import pathlib
import re
import sys

HOME = pathlib.Path(__file__).resolve().parent.parent
DEFINITIONS = ["docs/DEFINITIONS.md", "docs/DEFINITIONS-codecs.md", "docs/DEFINITIONS-levels.md"]
NAMING_CRATES = ["README.md", "docs/PROVED.md", "docs/ARCHITECTURE.md", "docs/GATE.md"]


def text_of(page):
    """The text of a file, which is named from the top of the repository."""
    return (HOME / page).read_text(encoding="utf-8")


def crate_list():
    """Each crate of crates.txt, with the crates that it stands on."""
    rows = [line.split("#")[0] for line in text_of("crates.txt").splitlines()]
    pairs = [row.partition(":") for row in rows if row.strip()]
    return {head.split()[0]: rest.split() for head, _, rest in pairs}


def table_rows(page, heading):
    """The rows of the tables whose first cell this is: line number, the headings that they stand under, and cells."""
    above, first = {}, None
    for number, line in enumerate(text_of(page).splitlines(), 1):
        if line.startswith("#"):
            level, _, title = line.partition(" ")
            above = {depth: words for depth, words in above.items() if depth < len(level)}
            above[len(level)] = title.strip()
        if not line.startswith("|"):
            first = None
            continue
        cells = [cell.strip() for cell in line.strip().strip("|").split("|")]
        if first is None:
            first = cells[0]
        elif not set(cells[0]) <= set("-: ") and first == heading:
            yield number, above, cells


def found_in(page, pattern):
    """What a pattern has in its brackets where a page first meets it."""
    found = re.search(pattern, text_of(page), re.MULTILINE | re.DOTALL)
    if not found:
        raise LookupError(f"{page} has nothing of the form {pattern}")
    return found[1]


def ticked(cell):
    return re.findall(r"`([^`]+)`", cell)


def definitions_of(crate):
    """The public definitions of a crate by file, each with its public fields."""
    found = {}
    for path in sorted((HOME / "crates" / crate / "specs").glob("*.antt")):
        names, fields = {}, []
        for line in text_of(path).splitlines():
            head = re.match(r"(?:abbrev |unfoldable )?pub (?:record |data )?(\w+'*)", line)
            field = re.match(r"  (?:pub )?(\w+'*) :", line)
            if head:
                fields = names.setdefault(head[1], [])
            elif field:
                fields.append(field[1])
        found[path.stem] = names
    found.pop("Lib", None)
    return found


class Call:
    """A function or a ghost of a crate: its owner, the trait that it is of, its name and the clauses of its contract."""

    def __init__(self, owner, trait, name, clauses):
        self.owner, self.trait, self.name, self.clauses = owner, trait, name, clauses


def owner_of(line):
    """The type and the trait that an item at the left edge is about, with no parameters."""
    while re.search(r"<[^<>]*>", line):
        line = re.sub(r"<[^<>]*>", "", line)
    of_impl = re.match(r"impl (?:(\w+) for )?(?:&mut )?(\w+)", line)
    of_type = re.match(r"(?:pub(?:\(\w+\))? )?(struct|enum|trait|type) (\w+)", line)
    if of_impl:
        return of_impl[2], of_impl[1]
    if of_type:
        return of_type[2], of_type[2] if of_type[1] == "trait" else None
    return None, None


def calls_of(crate):
    """The functions and ghosts of a crate's code without its tests, and the names of its types."""
    calls, types = [], set()
    for path in sorted((HOME / "crates" / crate / "src").glob("*.rt")):
        owner, trait, clauses = None, None, []
        for line in [] if path.stem == "tests" else text_of(path).splitlines():
            if re.match(r"[a-z}]", line):
                owner, trait = owner_of(line)
                types |= {owner} - {None}
            function = re.match(r"\s*(?:pub(?:\(\w+\))? )?fn (\w+)", line)
            clause = re.match(r"\s*(?:ensures|requires) (\w+) \{", line)
            ghost = re.match(r"\s*ghost (\w+)(?:: \{| = \{| \{)", line)
            if function:
                clauses = []
                calls.append(Call(owner, trait, function[1], clauses))
            elif clause:
                clauses.append(clause[1])
            elif ghost and owner:
                calls.append(Call(owner, trait, ghost[1], []))
    return calls, types


def proofs_of(crate):
    """The text of a crate's proofs."""
    return "\n".join(text_of(path) for path in (HOME / "crates" / crate / "proofs").rglob("*.antt"))


class Code:
    """The code of all crates, with what may be named of each."""

    def __init__(self, crates):
        self.crates = crates
        self.definitions = {crate: definitions_of(crate) for crate in crates}
        self.proofs = {crate: proofs_of(crate) for crate in crates}
        self.calls, self.types = {}, {}
        for crate in crates:
            self.calls[crate], self.types[crate] = calls_of(crate)

    def seen_from(self, crate):
        """The crate, and those of this repository that it stands on."""
        return [crate] + [below for below in self.crates[crate] if below in self.crates]

    def fields(self, crate, name):
        """The fields of the definitions of a name that the crate sees, or None where it sees none."""
        files = [names for seen in self.seen_from(crate) for names in self.definitions[seen].values()]
        found = [names[name] for names in files if name in names]
        return set().union(*found) if found else None

    def is_type(self, crate, name):
        return any(name in self.types[seen] for seen in self.seen_from(crate))

    def calls_named(self, crate, name):
        """The functions and ghosts that a name means: those of a type or a trait, that of a type, or all of the name."""
        owner, _, method = name.rpartition("::")
        if self.is_type(crate, name):
            calls = [call for seen in self.seen_from(crate) for call in self.calls[seen]]
            return [call for call in calls if name in (call.owner, call.trait)]
        return [call for call in self.calls[crate] if call.name == method and owner in ("", call.owner)]

    def clauses(self, crate, name):
        """The clauses of the contracts that a name means, those of traits among them; the names of a type's functions and
        ghosts; and the fields of a definition."""
        found = set(self.fields(crate, name) or [])
        for call in self.calls_named(crate, name):
            found |= set(call.clauses) | self.trait_clauses(crate, call.trait, call.name)
            found |= {call.name} if self.is_type(crate, name) else set()
        return found

    def trait_clauses(self, crate, trait, name=None):
        """The clauses of a trait's function, or of all of them."""
        calls = [call for seen in self.seen_from(crate) for call in self.calls[seen] if call.owner == trait]
        return {clause for call in calls if trait and name in (None, call.name) for clause in call.clauses}

    def knows(self, crate, name):
        """Whether a name may stand alone: as a function, a type, a definition, or as a clause of some function."""
        traits = {call.trait for call in self.calls[crate]}
        return bool(self.calls_named(crate, name)) or self.is_type(crate, name) \
            or self.fields(crate, name) is not None \
            or any(name in call.clauses for call in self.calls[crate]) \
            or any(name in self.trait_clauses(crate, trait) for trait in traits)


def grouped(cell):
    """The names of a contract by groups, each with the words before it. A comma or an `and` begins no new group."""
    found = []
    for words, name in re.findall(r"([^`]*)`([^`]+)`", cell):
        if found and words.strip() in (",", "and", ", and"):
            found[-1][1].append(name)
        else:
            found.append((words.strip(), [name]))
    return found


def roles(cell):
    """The groups of a contract, each with its role, its names, and the names that it speaks of."""
    groups, owners = grouped(cell), []
    for place, (words, names) in enumerate(groups):
        role = words if words in (":", "by") else "lemma" if words.startswith("lemma") else "alone"
        if place + 1 < len(groups) and groups[place + 1][0] == "of":
            role, owners = "of", groups[place + 1][1]
        elif role == ":":
            owners = groups[place - 1][1]
        yield role, names, [] if role in ("alone", "lemma") else owners


def fault_of(code, crate, role, name, owners):
    """What is wrong with a name in a contract, or None. Before an `of` it is a clause of all that follows; behind a colon a
    clause of something that stands before, or a statement that is defined; behind a `by` a definition, or another clause;
    and elsewhere anything that has a name."""
    parts = [name in code.clauses(crate, owner) for owner in owners]
    defined = code.fields(crate, name) is not None
    if role == "of":
        return None if all(parts) else f"{name} is no clause of {' and '.join(owners)}"
    if role == ":":
        return None if any(parts) or defined and name[0].isupper() else f"{name} is no clause of {' or '.join(owners)}"
    if role == "by":
        return None if any(parts) or defined else f"{crate} sees no definition {name}"
    if role == "lemma":
        return None if re.search(rf"^pub {name} :", code.proofs[crate], re.MULTILINE) else f"{crate} has no lemma {name}"
    return None if code.knows(crate, name) else f"{crate} has no {name}"


def faults_of_row(code, crate, cell):
    """What is wrong with the contract of a promise. Of a name that there is not, no clause is looked for."""
    if not ticked(cell):
        yield "a promise names no contract"
    if re.search(r"[:;,]\s*[:;,]", cell.replace("::", "")):
        yield "a contract has two marks in a row"
    for role, names, owners in roles(cell):
        if all(code.knows(crate, owner) for owner in owners):
            faults = [fault_of(code, crate, role, name, owners) for name in names]
            yield from [fault for fault in faults if fault]


def check_contracts(code):
    """The promises of docs/PROVED.md: each crate has some, and each names contracts that there are."""
    page, promised = "docs/PROVED.md", set()
    for number, above, cells in table_rows(page, "Promise"):
        crate = above.get(2, "").partition(":")[0]
        promised.add(crate)
        if crate not in code.crates:
            yield f"{page}:{number}: a promise stands under no crate"
            continue
        for fault in faults_of_row(code, crate, cells[-1]):
            yield f"{page}:{number}: {fault}"
    for crate in code.crates:
        if crate not in promised:
            yield f"{page} has no promise of the crate {crate}"


def described():
    """The names in the tables of definitions, as page, line number, crate, files and name."""
    for page in DEFINITIONS:
        for number, above, cells in table_rows(page, "Name"):
            files = above.get(3, "")
            for name in ticked(cells[0]) if files else []:
                yield page, number, above.get(2, ""), files.split(", "), name


def check_definitions(code):
    """Each name of the tables is a public definition of its file, and each public definition stands in a table."""
    told = set()
    for page, number, crate, files, name in described():
        known = code.definitions.get(crate, {})
        if not any(name in known.get(file, {}) for file in files):
            yield f"{page}:{number}: {crate} has no public definition {name} in {', '.join(files)}"
        told |= {(crate, file, name) for file in files}
    for crate, known in code.definitions.items():
        for file, names in known.items():
            for name in names:
                if (crate, file, name) not in told:
                    yield f"crates/{crate}/specs/{file}.antt: {name} stands in no table of definitions"


def check_links():
    """Each link of a document to a file leads to one."""
    pages = [HOME / "README.md", HOME / "examples" / "README.md", *sorted((HOME / "docs").glob("*.md"))]
    for page in pages:
        for number, line in enumerate(text_of(page).splitlines(), 1):
            for target in re.findall(r"\]\(([^)#\s]+)", line):
                if "://" not in target and not (page.parent / target).exists():
                    yield f"{page.relative_to(HOME)}:{number}: a link leads to no file: {target}"


def numbers_of(words):
    return [int(number) for number in re.findall(r"\b\d+\b", words.replace(",", ""))]


def asked_options():
    """What the words are asked for, by option: what stands before it, with the numbers of its rule, and its default."""
    asked = {}
    for line in text_of("crates/sim_words/specs/Requests.antt").splitlines():
        found = re.match(r'(.*)\(given_or named \(codes "([\w-]+)"\) \(codes "(.*?)"\)\)', line)
        if found:
            asked[found[2]] = found[1], found[3]
    return asked


def faults_of_option(asked, option, value, default):
    """What is wrong with the row of an option: its default, and the numbers of its rule."""
    rule, word = asked.get(option.strip("`-"), ("", None))
    numbers = [1] * ("power_within" in rule) + numbers_of(rule)
    if word is None:
        yield f"no request asks for {option}"
    elif default.strip("`") != {"false": "off"}.get(word, word):
        yield f"the default of {option} is {word}"
    if numbers and (numbers_of(value) != numbers or ("power_within" in rule) != ("power of two" in value)):
        yield f"the rule of {option} is {rule.split('(', 1)[1].strip()}"


def check_options():
    """The table of options has those of the command line, in order, each with its default and its rule."""
    page, asked = "docs/FORMATS.md", asked_options()
    listed = found_in("crates/sim_words/specs/CommandLine.antt", r"^option_names = (.*?)\[\]")
    wanted = [f"--{name}" for name in re.findall(r'codes "([\w-]+)"', listed) + ["json"]]
    rows = list(table_rows(page, "Option"))
    if [cells[0].strip("`") for _, _, cells in rows] != wanted:
        yield f"{page}: the options of its table are not {' '.join(wanted)}"
    for number, _, cells in rows:
        for fault in faults_of_option(asked, *(cells + ["", ""])[:3]):
            yield f"{page}:{number}: {fault}"


def check_commands():
    """The tables of commands have each command of the program once, those of FORMATS with what it takes."""
    page = "crates/sim_words/src/request.rt"
    listed = found_in(page, r"^pub enum Command \{\n(.*?)^\}")
    variants = re.findall(r"^    (\w+)(.*),$", listed, re.MULTILINE)
    takes = {name.lower(): "NUMBER" if "number" in rest else "FILE" for name, rest in variants}
    formats = [tuple(cells[0].strip("`").split()) for _, _, cells in table_rows("docs/FORMATS.md", "Command")]
    shown = [name for _, _, cells in table_rows("README.md", "Command")
             for name in re.findall(r"`\./hiersim (\w+)", cells[0])]
    if sorted(formats) != sorted(takes.items()):
        yield f"docs/FORMATS.md: the commands of its table are not those of {page}"
    if sorted(shown) != sorted(takes):
        yield f"README.md: the commands of its table are not those of {page}"


def check_crates(code):
    """Each crate is named where all crates are."""
    for page in NAMING_CRATES:
        for crate in code.crates:
            if not re.search(rf"\b{crate}\b", text_of(page)):
                yield f"{page} does not name the crate {crate}"


def check_carriers(code):
    """What README says that promises are carried by is in a crate of the row."""
    for number, _, cells in table_rows("README.md", "Crate"):
        crates = [crate for crate in ticked(cells[0]) if crate in code.crates]
        for name in ticked(cells[-1]):
            if not any(code.knows(crate, name) for crate in crates):
                yield f"README.md:{number}: none of {', '.join(crates)} has {name}"


def faults_found():
    """What is wrong, check by check. A file or a definition that the checks need and do not find ends them."""
    try:
        code = Code(crate_list())
        for faults in [check_crates(code), check_carriers(code), check_definitions(code), check_contracts(code),
                       check_links(), check_options(), check_commands()]:
            yield from faults
    except (OSError, LookupError) as lack:
        yield f"the checks ended early: {lack}"


def main():
    faults = list(faults_found())
    for fault in faults:
        print(f"light: {fault}")
    sys.exit(1 if faults else 0)


if __name__ == "__main__":
    main()
