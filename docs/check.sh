#!/bin/sh
# Holds the documents to what stands in the repository: counts, recipes, examples, paths, names, the crates, the types of stages
# and their options, the words of the command line, and the version. It names what doesn't agree. It needs Python 3, and builds
# and runs nothing. What the documents say of refusals is looked at by docs/check-errors.sh.
cd "$(dirname "$0")/.." || exit 2
exec python3 - << 'END'
import collections
import glob
import json
import os
import re
import shutil
import subprocess
import sys

faults = []
looked = collections.Counter()


def fault(place, why):
    faults.append(f"{place}: {why}")


def read(path):
    with open(path, encoding="utf-8") as file:
        return file.read()


PAGES = ["README.md", "CONTRIBUTING.md", "CHANGELOG.md"] + sorted(glob.glob("docs/*.md"))
TEXTS = {page: read(page) for page in PAGES}
MAN = read("man/lasline.1")


def agree(place, what, found, wanted):
    """Two lists that have to be one, in their order."""
    found, wanted = list(found), list(wanted)
    looked[what] += len(wanted)
    if found == wanted:
        return
    lacks = [item for item in wanted if item not in found]
    more = [item for item in found if item not in wanted]
    why = "in another order" if not lacks and not more else ""
    if lacks:
        why += " lacks " + ", ".join(map(str, lacks))
    if more:
        why += " has " + ", ".join(map(str, more)) + ", which isn't there"
    fault(place, f"{what}:{' ' if why[0] != ' ' else ''}{why}")


def blocks(text):
    """The indented blocks of a page: the number of the line, the paragraph before and the one behind, and the block."""
    lines = text.split("\n")
    at = 0
    while at < len(lines):
        if not (lines[at].startswith("    ") and (at == 0 or not lines[at - 1].strip())):
            at += 1
            continue
        end = at
        while end < len(lines) and (lines[end].startswith("    ") or not lines[end].strip()):
            end += 1
        block = "\n".join(line[4:] for line in lines[at:end]).rstrip()
        before = "\n".join(lines[:at]).rstrip().rsplit("\n\n", 1)[-1]
        behind = "\n".join(lines[end:]).split("\n\n", 1)[0]
        yield at + 1, before, block, behind, "\n".join(lines[end:])
        at = end


def codes(text):
    """The pieces of code between backticks, line by line, with the numbers of the lines."""
    for number, line in enumerate(text.split("\n"), 1):
        for code in re.findall(r"`([^`]+)`", line):
            yield number, line, code


def value(text):
    """What a JSON text says, or None."""
    try:
        return json.loads(text)
    except ValueError:
        return None


def rows(text):
    """The rows of tables, as their cells, each with the cells of the table's head and the number of its line."""
    head = None
    lines = text.split("\n")
    for number, line in enumerate(lines, 1):
        if not line.startswith("|"):
            head = None
            continue
        cells = [cell.strip() for cell in re.split(r"(?<!\\)\|", line)[1:-1]]
        if head is None:
            head = cells
        elif not re.fullmatch(r"[|\- ]+", line):
            yield number, head, cells


def section(text, title):
    """What stands below a heading, as far as the next one that isn't below it."""
    found = re.search(rf"^(#+) {re.escape(title)}\n(.*?)(?=^#{{1,6}} |\Z)", text, re.M | re.S)
    if not found:
        return ""
    level = len(found[1])
    return re.search(rf"^#+ {re.escape(title)}\n(.*?)(?=^#{{1,{level}}} |\Z)", text, re.M | re.S)[1]


# ---- what stands in the repository

# The crates, with the ones that they stand on directly, and those that are drawn: what none of the others stands on.
crates, groups, ported = {}, [], set()
for line in read("crates.txt").split("\n"):
    if line.startswith("# ") and not line.endswith("above it."):
        groups.append((line[2:], []))
    found = re.fullmatch(r"([a-z_0-9]+):(.*)", line)
    if found:
        crates[found[1]] = found[2].split()
        groups[-1][1].append(found[1])
below = {}
for name, stands_on in crates.items():
    ported |= {other for other in stands_on if other not in crates}
    crates[name] = [other for other in stands_on if other in crates]
    for other in crates[name]:
        if other not in below:
            fault("crates.txt", f"{name} stands on {other}, which isn't above it")
            below[other] = set()
    below[name] = set(crates[name]).union(*(below[other] for other in crates[name]))
drawn = {
    name: [other for other in on if not any(other in below[third] for third in on)] for name, on in crates.items()
}
agree("crates.txt", "crates", sorted(crates), sorted(os.path.basename(path[:-1]) for path in glob.glob("crates/*/")))

# The types of stages, and the options of each.
types = re.findall(r'KindName::\w+ => "([a-z.]+)"', read("crates/stage_names/src/kinds.rt"))
variants = dict(re.findall(r'KindName::(\w+) => "([a-z.]+)"', read("crates/stage_names/src/kinds.rt")))
rules = read("crates/stage_options/src/rules.rt")
lists = dict(re.findall(r"const (\w+): &\[Rule\] = &\[(.*?)\];", rules, re.S))
options = {}
for variant, list_name in re.findall(r"KindName::(\w+) => (\w+|&\[\]),", rules):
    text = re.sub(r"\bWHERE\b", 'Rule::Optional("where", 0)', lists.get(list_name, ""))
    options[variants[variant]] = re.findall(r'Rule::\w+\(\s*"(\w+)"', text)
agree("crates/stage_options/src/rules.rt", "types", sorted(options), sorted(types))
all_options = {name for names in options.values() for name in names}
members = {"type", "filename", "tag", "inputs", "pipeline"}
fields = re.search(r"fn is_field\(.*?\n}", read("crates/option_texts/src/forward.rt"), re.S)[0]
forwarded = set(re.findall(r'"(\w+)"', fields))

# The commands and their options.
reading = read("crates/command_words/src/reading.rt")
commands = re.findall(r'"([a-z-]+)" => Some\(State::', reading)
settings = re.findall(r'"(--\w+)"', read("crates/command_words/src/options.rt")) + re.findall(r'== "(--\w+)"', reading)
lines = re.search(r"concat!\((.*?)\n    \)", read("crates/lasline_top/src/pages.rt"), re.S)[1]
page = "".join(json.loads(line) for line in re.findall(r'".*"', lines))
version = re.search(r'"(lasline \S+)\\n"', read("crates/lasline_top/src/pages.rt"))[1]

# The stored cases, in the order in which they are read.
cases = []
by_name = {}
case_files = read("crates/worked_runs/args").split()
for name in case_files:
    case = file = into = None
    for line in read(f"crates/worked_runs/data/{name}").split("\n"):
        line = line.lstrip()
        word, _, rest = line.partition(" ")
        if word == "case":
            case = {"name": rest, "files": {}, "said": None, "report": None}
            cases.append(case)
            by_name[rest] = case
            into = None
        elif word in ("like", "as"):
            for key in ("files", "said", "report") if word == "like" else ("said", "report"):
                kept = by_name[rest][key]
                case[key] = dict(kept) if isinstance(kept, dict) else kept
        elif word in ("file", "change"):
            file, into = rest, "files"
            if word == "file":
                case["files"][file] = ""
        elif word in ("ok", "refused"):
            case["said"], into = line, None
            case["report"] = None if word == "refused" else case["report"]
        elif word == "report":
            case["report"], into = "", "report"
        elif word in ("keeps", "calls"):
            into = None
        elif line[:1] in ("|", ">") and into:
            piece = line[1:] + ("\n" if line[0] == "|" else "")
            if into == "files":
                case["files"][file] += piece
            else:
                case["report"] += piece

# ---- wrong bodies

told = section(TEXTS["CONTRIBUTING.md"], "Wrong bodies")
kept = [tuple(path.split("/")[1::2]) for path in glob.glob("crates/*/must-fail/*.edit")]
named = [(cells[1].strip("`"), cells[0].strip("`") + ".edit") for number, head, cells in rows(told)]
agree("CONTRIBUTING.md", "wrong bodies", sorted(named), sorted(kept))
counts = re.search(r"There are (\d+) wrong bodies in\s+(\d+) crates", told)
if not counts or (int(counts[1]), int(counts[2])) != (len(kept), len({crate for crate, edit in kept})):
    fault("CONTRIBUTING.md", f"has to speak of {len(kept)} wrong bodies in {len({crate for crate, edit in kept})} crates")

# ---- counts

for page_name, text in list(TEXTS.items()) + [("man/lasline.1", MAN)]:
    for number in re.findall(r"\b(\d[\d,]*)\s+(?:stored\s+)?cases\b", text):
        looked["counts of cases"] += 1
        if int(number.replace(",", "")) != len(cases):
            fault(page_name, f"speaks of {number} cases, and crates/worked_runs/data has {len(cases)}")
if not looked["counts of cases"]:
    fault("docs/PROVED.md", "says no number of cases")
stored = read("crates/worked_runs/stdout").rstrip("\n").split("\n")
passed = [re.sub(r"^\w+ (.*) \(\d+ runs\)$", r"\1", line) for line in stored[:-1]]
agree("crates/worked_runs/stdout", "cases", passed, [case["name"] for case in cases])
agree("crates/worked_runs/stdout", "last line", stored[-1:], [f"{len(cases)} of {len(cases)} cases passed"])
listed = [cells[0].strip("`") for _, head, cells in rows(TEXTS["docs/WORKED_RUNS.md"]) if head[0] == "file"]
agree("docs/WORKED_RUNS.md", "files of cases", listed, case_files)
agree("crates/worked_runs/args", "files of cases", sorted(case_files), sorted(os.listdir("crates/worked_runs/data")))
for pages, most in ((["README.md"], 2600), (["docs/PROVED.md", "docs/ARCHITECTURE.md"], 9000)):
    words = sum(len(TEXTS[page].split()) for page in pages)
    if words > most:
        fault(" and ".join(pages), f"{words} words, and at most {most:,} are wanted")

# ---- recipes and examples

recipes = {path: read(path).rstrip("\n") for path in glob.glob("examples/*.json") + glob.glob("examples/own_filter/*.json")}
for page_name, text in TEXTS.items():
    for number, before, block, _, _ in blocks(text):
        named = re.search(r"\(`(examples/[\w/-]+\.json)`\)[:.]?$", before)
        if not named:
            continue
        looked["recipes"] += 1
        if recipes.get(named[1]) != block:
            fault(f"{page_name}:{number}", f"the recipe isn't {named[1]}")
told = " ".join(TEXTS.values())
for path in sorted(recipes):
    if f"`{path}`" not in told:
        fault(path, "no page names it")
    if not os.path.exists(f"examples/expected/{os.path.basename(path)[:-5]}/code"):
        fault(path, "what must come of it isn't in examples/expected")

# Each pipeline of docs/PIPELINES.md is a case or an example, and what is said to come of it does.
def key(text):
    found = value(text)
    return text.strip() if found is None else json.dumps(found, sort_keys=True)


known = collections.defaultdict(list)
for case in cases:
    for text in case["files"].values():
        if text[:1] in ("[", "{"):
            known[key(text)].append(case)
for path, text in recipes.items():
    expected = f"examples/expected/{os.path.basename(path)[:-5]}"
    if os.path.exists(f"{expected}/said"):
        said = read(f"{expected}/said").strip()
        come = f"refused {read(f'{expected}/code').strip()} {said[9:]}" if said else "ok"
        known[key(text)].append({"said": come, "report": read(f"{expected}/printed")})
for number, before, block, behind, rest in blocks(TEXTS["docs/PIPELINES.md"]):
    if not re.match(r"\[\"|\[\{|\{\"", block):
        continue
    place = f"docs/PIPELINES.md:{number}"
    looked["pipelines"] += 1
    found = known.get(key(block))
    if not found:
        fault(place, "this pipeline is neither a case of crates/worked_runs/data nor an example")
        continue
    refusal = re.match(r"(?:it is|is answered with|with) exit code (\d)(?:\s+and\s+`lasline:\s+([^`]*)`)?", behind)
    if refusal:
        looked["refusals"] += 1
        wanted = f"refused {refusal[1]} " + " ".join((refusal[2] or "").split())
        if not any((case["said"] or "").startswith(wanted) for case in found):
            fault(place, f"no case of it comes to `{wanted.strip()}`")
    if re.match(r"(?:It p|p)rints\n\n", rest):
        looked["reports"] += 1
        report = re.match(r"(?:It p|p)rints\n\n((?:    .*\n)+)", rest)
        printed = "".join(line[4:] + "\n" for line in report[1].rstrip("\n").split("\n")) if report else ""
        if not any(case["report"] == printed for case in found):
            fault(place, "no case of it has this report")

# Each line of a refusal that a page names is one of docs/ERRORS.md, which has N, NAME and AXIS in place of what differs.
refusals = []
for _, _, code in codes(TEXTS["docs/ERRORS.md"]):
    if re.match(r"lasline: .*\w$", code):
        pattern = re.sub(r"\bNAME\b", ".+", re.sub(r"\bAXIS\b", "[XYZ]", re.sub(r"\bN\b", r"\\d+", re.escape(code))))
        refusals.append(re.compile(pattern))
for page_name, text in TEXTS.items():
    for number, _, code in codes(text):
        if page_name != "docs/ERRORS.md" and re.match(r"lasline: (?!TEXT$).", code):
            looked["lines of refusals"] += 1
            if not any(line.fullmatch(code) for line in refusals):
                fault(f"{page_name}:{number}", f"docs/ERRORS.md has no line for `{code}`")

# ---- paths, headings, targets

HEADS = {page_name: re.findall(r"^#+ (.*)$", text, re.M) for page_name, text in TEXTS.items()}


def anchors(page_name):
    return [re.sub(r"[^\w\- ]", "", head.lower()).replace(" ", "-") for head in HEADS[page_name]]


TOP = ("crates", "docs", "examples", "man", "completions", "bench")
targets = re.findall(r"^([a-z]+):", read("Makefile"), re.M)
for page_name, text in TEXTS.items():
    pieces = list(codes(text))
    for number, _, block, _, _ in blocks(text):
        pieces += [(number, "", line) for line in block.split("\n")]
    # A path that begins in no folder of the top is one of the crate that was named last, in its item of a list or row of a table.
    last, item_before = None, None
    lines = text.split("\n")
    item_of = {}
    for number, line in enumerate(lines, 1):
        begins = not line.strip() or re.match(r"\s*(\||-|\d+\.) ?", line)
        item_of[number] = number if begins or number == 1 else item_of[number - 1]
    for number, line, code in pieces:
        place = f"{page_name}:{number}"
        if item_of[number] != item_before:
            last, item_before = None, item_of[number]
        row = re.match(r"\| `(\w+)` \|", line)
        if row and row[1] in crates:
            last = row[1]
        for target in re.findall(r"(?:^| )make ([a-z]+)\b", code):
            looked["targets"] += 1
            if target not in targets:
                fault(place, f"the Makefile has no target {target}")
        for word in code.split():
            word = word.rstrip(".,:;").split("#")[0]
            if re.search(r"NAME|FILE|FOLDER|[<>\"']|\.\.", word):
                continue
            if re.match(rf"({'|'.join(TOP)})/", word) or re.fullmatch(r"[A-Z]+\.md|Makefile|crates\.txt", word):
                looked["paths"] += 1
                if not glob.glob(word.rstrip("/")):
                    fault(place, f"there is no {word}")
                if word.startswith("crates/"):
                    last = word.split("/")[1]
            elif re.match(r"[a-z_]+/(src|specs|proofs)/\w", word):
                looked["paths"] += 1
                last = word.split("/")[0]
                if not any(os.path.exists(f"crates/{word}{end}") for end in ("", ".rt", ".antt")):
                    fault(place, f"there is no crates/{word}")
            elif page_name.endswith(("ARCHITECTURE.md", "CONTRIBUTING.md", "PROVED.md")):
                if word in crates and not (row and row[1] in crates):
                    last = word
                path = re.fullmatch(r"((?:src|specs|proofs)/)?([\w/]+)(\.rt|\.antt)?", word)
                if path and (path[1] or path[3]):
                    looked["paths"] += 1
                    folder = path[1] or "src/"
                    end = path[3] or (".antt" if folder != "src/" else ".rt")
                    file = f"crates/{last}/{folder}{path[2]}{end}"
                    if last is None or not os.path.exists(file):
                        fault(place, f"there is no {word}" + (f" in {last}" if last else ""))
    for number, line in enumerate(text.split("\n"), 1):
        for link in re.findall(r"\]\(([^)]+)\)", line):
            looked["links"] += 1
            path, _, anchor = link.partition("#")
            if "://" in path:
                continue
            page = os.path.normpath(os.path.join(os.path.dirname(page_name), path)) if path else page_name
            if not os.path.exists(page) or (anchor and anchor not in anchors(page)):
                fault(f"{page_name}:{number}", f"the link {link} leads nowhere")
    for head, page in re.findall(r'"([^"`\n]+)"\s+in\s+`([\w/]+\.md)`', text):
        looked["headings"] += 1
        if head not in HEADS.get(page, []):
            fault(page_name, f'{page} has no heading "{head}"')
    for page, head in re.findall(r'`([\w/]+\.md)`\s+(?:tells|says|has)\s+in\s+"([^"`\n]+)"', text):
        looked["headings"] += 1
        if head not in HEADS.get(page, []):
            fault(page_name, f'{page} has no heading "{head}"')

# ---- names of the code in the documents on it

names, clauses = {}, {}
for name in crates:
    found, carrying = set(), set()
    for path in glob.glob(f"crates/{name}/**/*.*t", recursive=True):
        if path.endswith((".rt", ".antt")):
            text = read(path)
            found.add(os.path.basename(path).rsplit(".", 1)[0])
            found |= set(re.findall(r"[A-Za-z_][A-Za-z0-9_]*", text))
            # Clauses, calls and laws, and the fields of records of clauses.
            for pattern in (r"\b(?:ensures|fn) (\w+)\b", r"\bghost (\w+):", r"\bpub «?(\w+)»? :"):
                carrying |= set(re.findall(pattern, text))
    names[name], clauses[name] = found, carrying
anywhere = set().union(*names.values()) | set(crates) | ported


def names_stand(page_name, text, first=1, home=None):
    pool = names[home] | set(crates) if home else anywhere
    for number, _, code in codes(text):
        if not re.fullmatch(r"[A-Za-z_][\w:]*(\(\))?!?", code) or re.fullmatch(r"[A-Z]+", code):
            continue
        for name in re.findall(r"\w+", code):
            looked["names"] += 1
            if name not in pool and not re.fullmatch(r"x?[0-9a-f]+", name):
                fault(f"{page_name}:{number + first - 1}", f"no {name} in " + (home or "crates/"))


architecture = TEXTS["docs/ARCHITECTURE.md"]
table = section(architecture, "The crates")
table_at = architecture[: architecture.index(table)].count("\n")
names_stand("docs/ARCHITECTURE.md", architecture.replace(table, "\n" * table.count("\n")))
proved = TEXTS["docs/PROVED.md"]
names_stand("docs/PROVED.md", re.sub(r"^### .*$", "", proved, flags=re.M))
for name in crates:
    text = section(proved, f"`{name}`")
    names_stand(f"docs/PROVED.md: {name}", text, home=name)
    # Names in parentheses say which clause or law carries a promise.
    for group in re.findall(r"\(((?:`[a-z]\w*`(?:,\s+)?)+)\)", text):
        for clause in re.findall(r"`(\w+)`", group):
            looked["clauses"] += 1
            if clause not in clauses[name]:
                fault(f"docs/PROVED.md: {name}", f"no clause or law {clause}")
names_stand("CONTRIBUTING.md: To add a type of stage", section(TEXTS["CONTRIBUTING.md"], "To add a type of stage"))
names_stand("docs/DECISIONS.md", re.sub(r"`(byteorder|fdatasync)`", "", TEXTS["docs/DECISIONS.md"]))

# ---- the crates

# One line for each crate, below its group.
listed, listed_groups = [], []
for number, head, cells in rows(table):
    name = cells[0].strip("`*")
    if cells[0].startswith("**"):
        listed_groups.append((name, []))
        continue
    listed.append(name)
    if listed_groups:
        listed_groups[-1][1].append(name)
    if name in crates:
        place = f"docs/ARCHITECTURE.md:{number + table_at}"
        agree(place, f"crates that {name} stands on", re.findall(r"`(\w+)`", cells[1]), drawn[name])
        names_stand("docs/ARCHITECTURE.md", cells[2], number + table_at, name)
agree("docs/ARCHITECTURE.md", "crates of the table", listed, crates)
agree("docs/ARCHITECTURE.md", "groups of the table", [name for name, _ in listed_groups], [name for name, _ in groups])
for (name, held), (_, found) in zip(groups, listed_groups):
    agree("docs/ARCHITECTURE.md", f"crates of the table in {name}", found, held)
libraries = [name for title, held in groups if not re.search(r"Tests|program", title) for name in held if name != "speed_words"]
agree("docs/PROVED.md", "crates", re.findall(r"^### `(\w+)`$", proved, re.M), libraries)
for page_name, text in TEXTS.items():
    found = re.search(r"on the kit's crates\s+((?:`\w+`(?:,| and|\.)\s*)+)", text)
    if found:
        agree(page_name, "the kit's crates", re.findall(r"`(\w+)`", found[1]), sorted(ported))

# ---- the types of stages and their options

pipelines = TEXTS["docs/PIPELINES.md"]
listed = re.findall(r"^\| `((?:readers|filters|writers)\.\w+)` \|", TEXTS["README.md"], re.M)
agree("README.md", "types of the table", sorted(listed), sorted(types))
linked = re.findall(r"^\| \[`([a-z.]+)`\]\(#\w+\)", pipelines, re.M)
headed = [head for head in HEADS["docs/PIPELINES.md"] if re.match(r"(readers|filters|writers)\.", head)]
agree("docs/PIPELINES.md", "types of the table", sorted(linked), sorted(types))
agree("docs/PIPELINES.md", "types of the sections", headed, linked)
for name in types:
    found = []
    for _, head, cells in rows(section(pipelines, name)):
        if head[0] == "option":
            found += re.findall(r"`(\w+)`", cells[0])
    agree(f"docs/PIPELINES.md: {name}", "options", found, options[name])
entries = dict(re.findall(r"^\.TP\n\.BR? ([a-z]+\.[a-z]+)[^\n]*\n(.*?)(?=^\.TP|^\.PP|^\.SH|\Z)", MAN, re.M | re.S))
agree("man/lasline.1", "types", sorted(entries), sorted(types))


def bold(text):
    """The words of a piece of a manual page that are bold."""
    for line in text.split("\n"):
        found = re.match(r"\.(B|BR|BI|RB|IB) (.*)", line)
        if found:
            parts = re.findall(r'"[^"]*"|\S+', found[2])
            picked = parts if found[1] == "B" else parts[1::2] if found[1] in ("RB", "IB") else parts[::2]
            for part in picked:
                yield from re.findall(r"[\w-]+", part.replace("\\-", "-").replace("\\", ""))


for name, entry in entries.items():
    found = set(bold(entry)) - {"where"}
    if name == "writers.las":
        found -= forwarded - set(options[name])
    agree(f"man/lasline.1: {name}", "options", sorted(found), sorted(set(options.get(name, [])) - {"where"}))
if "where" not in set(bold(MAN)):
    fault("man/lasline.1", "it has no where")
pairs = set()
for number, head, cells in rows(section(TEXTS["docs/ERRORS.md"], "bad value of option")):
    for option in re.findall(r"`(\w+)`", cells[0]):
        for name in re.findall(r"`([a-z.]+)`", cells[1]):
            pairs.add(f"{option} of {name}")
listed = [f"{option} of {name}" for name in types for option in options[name]]
agree("docs/ERRORS.md", "options", sorted(pairs), sorted(listed))

# A type that a page names is one, unless it stands beside PDAL, and so is a member of a stage.
for page_name, text in list(TEXTS.items()) + [("man/lasline.1", MAN)]:
    heading = head = ""
    for number, line in enumerate(text.split("\n"), 1):
        if line.startswith("#"):
            heading = line
        if not line.startswith("|"):
            head = ""
        elif not head:
            head = line
        for name in re.findall(r"\b(?:readers|filters|writers)\.[a-z]\w*", line):
            looked["names of types"] += 1
            if name not in types and not name.endswith((".rt", ".txt")) and "PDAL" not in heading + head:
                fault(f"{page_name}:{number}", f"there is no type {name}")
        for name in re.findall(r'"(\w+)":', line):
            looked["members"] += 1
            if name not in all_options | members and f"unknown option {name}" not in text:
                fault(f"{page_name}:{number}", f"no type has the option {name}")

# ---- the words of the command line, the version, the kit

for place in ("README.md", "docs/PIPELINES.md", "man/lasline.1", "completions/lasline.bash", "completions/_lasline"):
    text = read(place).replace("\\-", "-")
    page_words = set(re.findall(r"(?<![\w-])--[a-z]+\b", text))
    # The pages may leave words out, and name those of other programs.
    if place == "README.md":
        wanted = commands
    elif place == "docs/PIPELINES.md":
        wanted = settings
    else:
        wanted = commands + settings
    lacks = [name for name in wanted if not re.search(rf"(?<![\w-]){name}\b", text)]
    looked["words"] += len(wanted)
    if lacks:
        fault(place, "lacks " + ", ".join(lacks))
    if not place.endswith(".md"):
        more = page_words - set(settings) - set(commands)
        if more:
            fault(place, "has " + ", ".join(sorted(more)) + ", which is no word of the program")
# In a page a word of the program stands by itself in a piece of code, or with its number. `--x` is the name of a file.
for page_name, text in TEXTS.items():
    for name in re.findall(r"`(--[a-z]+)(?: N)?`", text):
        looked["words"] += 1
        if name not in settings + commands + ["--x"]:
            fault(page_name, f"has {name}, which is no word of the program")
bash, zsh = read("completions/lasline.bash"), read("completions/_lasline")
agree("completions/lasline.bash", "commands", re.search(r'-W "([^"]*)"', bash)[1].split(), commands)
agree("completions/lasline.bash", "options", re.search(r"for option in (.*?);", bash)[1].split(), settings)
agree("completions/_lasline", "words", re.findall(r"'(-{0,2}[a-z]+):", zsh), commands + settings)
title = re.search(r'^\.TH LASLINE 1 "[^"]*" "([^"]*)"', MAN, re.M)
agree("man/lasline.1", "version", [title[1] if title else ""], [version])
releases = re.findall(r"^## (lasline \d\S*?),? ", TEXTS["CHANGELOG.md"].replace("\n", " \n"), re.M)
agree("CHANGELOG.md", "version at the top", releases[:1], [version])
for line in re.findall(r"^## .*$", TEXTS["CHANGELOG.md"], re.M):
    if not re.fullmatch(r"## lasline \d\S*, (\d{4}-\d\d-\d\d|not yet released)|## \d{4}-\d\d-\d\d", line):
        fault("CHANGELOG.md", f"`{line}` has no version or no date")
kits = {page_name: re.findall(r"kit `([^`]+)`", text) for page_name, text in TEXTS.items()}
kit = None
if shutil.which("rt"):
    kit = subprocess.run(["rt", "version"], capture_output=True, text=True).stdout.strip()
for page_name, found in kits.items():
    for name in found:
        looked["kit"] += 1
        kit = kit or name
        if name != kit:
            fault(page_name, f"names the kit {name}, and it is {kit}")

# ---- the end

LEAST = {
    "cases": 500, "recipes": 15, "pipelines": 40, "refusals": 12, "reports": 8, "lines of refusals": 20,
    "paths": 100, "links": 10, "targets": 5,
    "names": 400, "clauses": 150, "names of types": 100, "options": 50, "members": 100, "words": 20, "kit": 2,
}
for what, least in LEAST.items():
    if looked[what] < least:
        fault("docs/check.sh", f"found {looked[what]} {what} alone: it has to follow the files that it reads")
for line in faults:
    print(line)
if not faults:
    print("the documents agree: " + ", ".join(f"{looked[what]} {what}" for what in LEAST))
sys.exit(1 if faults else 0)
END
