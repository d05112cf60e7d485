"""The two pages that `./audit` makes of the sources: `--page` has the definitions, `--promises` the public functions with their contracts.

Both are Markdown, printed on standard output, and in no file of the repository: what they say stands once, beside the code. Each function
here gets the script `audit` as a module, which reads the sources.
"""
import glob
import os
import re

SECTION = re.compile(r"\(((?:ITU-T )?(?:T\.8[17]|Netpbm)[^()]*)\)")
PUBLIC = re.compile(r"^\s*(?:abbrev |unfoldable )?pub ")
ROWS = "| Name | What it says | Section | Computed in |\n|---|---|---|---|"

PAGE = """# Definitions

A contract consists of the words below. A proof shows that the code meets its contracts. It can't show that these words mean what they
should: a reader has to check that. docs/AUDIT.md says how to read a contract, and in which order to read this page.

The crates come bottom up. *Section* is that of ITU-T T.87 (ISO/IEC 14495-1), of ITU-T T.81 or of Netpbm's manuals. A definition without one
is this project's own. A *law* is a statement that some function's contract makes. *Computed in* names files of `proofs/` that compute the
definition on known values. Definitions that no public function rests on, and that only proofs, invariants and the laws of traits need, come
last in each file.
"""

PROMISES = """# Promises

Here is each public function, with what its comment says and with the clauses of its contract. A crate is built only if the checker has
proved them all. Two promises more hold for every function of every crate. It is safe: no index out of range, no overflow, no cast that
loses bits, no division by zero. It returns on every input that its `requires` allows. Any call that can answer "out of memory" may do so:
no clause says that there is enough memory. A *law* is a function that does nothing, and whose contract is a statement about definitions.
`./audit NAME` prints the definitions that the contract of a function rests on.
"""


def text_of(comment):
    return " ".join(line.strip().lstrip("-/!").strip() for line in comment)


def is_public(definition):
    return bool(PUBLIC.match(definition.lines[0])) or not definition.home[1].startswith("specs/")


def name_of(definition):
    """The name of a definition; of an operator, which the script knows by the word before it, the operator."""
    found = re.match(r"(?:abbrev )?pub (\S*◌\S*)", definition.lines[0])
    return found.group(1) if found else definition.name


def first_lines(audit, crate):
    """What a crate says of itself: the `//!` of its lib or main."""
    for name in ("lib.rt", "main.rt"):
        path = os.path.join(audit.CRATES, crate, "src", name)
        if os.path.isfile(path):
            return [re.sub("^#", "###", re.sub(r"^//! ?", "", line)) for line in audit.read(path) if line.startswith("//!")]
    return []


def examples(audit):
    """For each (module, name) the files of examples that import and use it, each with its crate."""
    found = {}
    for path in sorted(glob.glob(os.path.join(audit.CRATES, "*", "proofs", "*Examples.antt"))):
        lines = audit.read(path)
        code = "\n".join(re.sub(r"--.*", "", line) for line in lines if not re.match(r"\s*(?:use|pub use) ", line))
        used = set(audit.NAME.findall(code))
        home = (path.split(os.sep)[-3], os.path.basename(path)[: -len(".antt")])
        for name, (module, there) in audit.Scope(lines).names.items():
            if name in used:
                found.setdefault((module, there), []).append(home)
    return found


def computed_in(audit, definition, found):
    """The first two files of examples that use a definition, those of its own crate first."""
    crate, file = definition.home
    module = f"{audit.PREFIX}{crate}." + file.removesuffix(".antt").replace("/", ".")
    files = sorted(found.get((module, definition.name), []), key=lambda at: at[0] != crate)[:2]
    return ", ".join(f"`{file}`" if home == crate else f"`{file}` of {home}" for home, file in files)


def row(audit, definition, found, statements):
    """The row of a definition: its sections of a standard stand in a column of their own."""
    text = text_of(definition.comment).replace("|", "\\|") or "as its fields say"
    sections = "; ".join(SECTION.findall(text))
    says = re.sub(r" +([.,:;])(?!\.)", r"\1", re.sub("  +", " ", SECTION.sub("", text))).strip()
    says = f"law: {says}" if id(definition) in statements else says
    return f"| `{name_of(definition)}` | {says} | {sections} | {computed_in(audit, definition, found)} |"


def by_crate(audit, definitions):
    """{crate: [(file, its definitions)]}, lower crates first, files and definitions in the order in which to read them."""
    crates = {crate: [] for crate in audit.crate_order()}
    for (crate, file), members in audit.in_reading_order(definitions):
        crates[crate].append((file, members))
    return {crate: files for crate, files in crates.items() if files}


def all_definitions(audit, sources):
    """The public definitions, and those of them that some public function rests on, types of the code among them."""
    reached = audit.all_reached(sources, list(audit.all_claims()))
    public = [made for module in sources.modules.values() for made in module.definitions.values() if is_public(made)]
    return list({id(made): made for made in reached + public}.values()), {id(made) for made in reached}


def statements_of_laws(audit, sources):
    """What laws say: the definitions without parameters that their contracts name."""
    laws = [audit.roots_of(sources, claim) for claim in audit.all_claims() if is_law(audit, claim)]
    return {id(made) for law in laws for made in law.uses if re.search(rf"\b{made.name} : Type 0$", made.lines[0])}


def shared_names(definitions, reached):
    """The names that two crates or more give to something that a contract says, each with its crates."""
    crates = {}
    for made in definitions:
        if id(made) in reached:
            crates.setdefault(name_of(made), set()).add(made.home[0])
    return "; ".join(f"`{name}` of {', '.join(sorted(homes))}" for name, homes in sorted(crates.items()) if len(homes) > 1)


def print_page(audit):
    sources = audit.Sources()
    audit.read_models()
    definitions, reached = all_definitions(audit, sources)
    found, statements, rows = examples(audit), statements_of_laws(audit, sources), 0
    print(PAGE)
    for crate, files in by_crate(audit, definitions).items():
        print("\n".join([f"## {crate}", "", *first_lines(audit, crate), ""]))
        for file, members in files:
            module = sources.modules.get(audit.PREFIX + crate + "." + file.removesuffix(".antt").replace(os.sep, "."))
            print("\n".join([f"### `{file}`", "", *([module.title, ""] if module and module.title else [])]))
            for inner, head in ((False, ""), (True, "Inside the crate:\n\n")):
                lines = [row(audit, made, found, statements) for made in members if (id(made) not in reached) == inner]
                rows += len(lines)
                if lines:
                    print("\n".join([head + ROWS, *lines, ""]))
    print(f"Names of several crates that public functions rest on: {shared_names(definitions, reached)}.\n")
    print(f"{rows} definitions, of which public functions rest on {len(reached)}")


def doc_of(lines, at):
    """The doc comment above a line, without its marks."""
    first = at
    while first > 0 and re.match(r"\s*(?:///|#\[)", lines[first - 1]):
        first -= 1
    return [re.sub(r"^\s*/// ?", "", line) for line in lines[first:at] if line.strip().startswith("///")]


def is_law(audit, claim):
    return audit.is_law(claim) and (claim[0], claim[3]) not in audit.RUNS and any("ensures" in line for line in claim[6])


def contract_of(contract):
    """The lines of a contract, from the margin: to the brace of the body, or to the semicolon of a function of a trait."""
    indent = len(contract[0]) - len(contract[0].lstrip())
    lines = [line[indent:] for line in contract]
    for at, line in enumerate(lines):
        if line.endswith(";") and not "".join(lines[at + 1 : at + 2]).startswith(" "):
            return lines[: at + 1]
    return lines[:-1] if lines[-1] == "{" else lines


def print_promises(audit):
    claims = {}
    for claim in audit.all_claims():
        if doc_of(claim[2], claim[5]) or len(claim[6]) > 1:  # a conversion of std's traits has neither comment nor clause
            claims.setdefault(claim[0], []).append(claim)
    print(PROMISES)
    laws = [claim for found in claims.values() for claim in found if is_law(audit, claim)]
    print("## The laws, by name\n\n| Law | File | Line |\n|---|---|---|")
    for crate, file, _, function, _, at, _ in sorted(laws, key=lambda claim: (claim[3], claim[0])):
        print(f"| `{function}` | `crates/{crate}/{file}` | {at + 1} |")
    count = 0
    for crate in [name for name in audit.crate_order() if name in claims and not name.endswith("_tests")]:
        print("\n".join(["", f"## {crate}", "", *first_lines(audit, crate)]))
        file_before = None
        for _, file, lines, function, owner, at, contract in claims[crate]:
            if file != file_before:
                print(f"\n### `{file}`")
            file_before, count = file, count + 1
            print("\n".join(["", f"**{owner + '::' if owner else ''}{function}** (line {at + 1})", "", *doc_of(lines, at), ""]))
            print("\n".join("    " + line for line in contract_of(contract)))
    print(f"\n{count} functions, {len(laws)} laws")


def write(audit, word):
    """Prints the page that the word names."""
    {"--page": print_page, "--promises": print_promises}[word](audit)
    return 0
