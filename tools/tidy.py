"""Quick checks of the repository itself, beside the proofs: sizes, names, documents and examples.

Run at the top of the repository: python3 tools/tidy.py. It reads only, and exits 1 if something is amiss.
"""

import os
import re
import sys

MOST_FILE, MOST_CRATE = 800, 1500


def text_of(path):
    with open(path, encoding="utf-8") as file:
        return file.read()


def crates():
    names = []
    for line in text_of("crates.txt").splitlines():
        line = line.split("#")[0].strip()
        if line:
            names.append(line.split(":")[0].split()[0])
    return names


def files_below(folder, ending):
    for base, folders, names in os.walk(folder):
        folders[:] = sorted(f for f in folders if f != "out")
        for name in sorted(names):
            if name.endswith(ending):
                yield os.path.join(base, name)


def check_crate(name, faults):
    top = f"crates/{name}"
    sources = list(files_below(f"{top}/src", ".rt"))
    lines = {path: text_of(path).count("\n") for path in sources}
    for path, count in lines.items():
        if count > MOST_FILE:
            faults.append(f"{path}: {count} lines; a file stays under {MOST_FILE}")
    if sum(lines.values()) > MOST_CRATE:
        faults.append(f"{top}: {sum(lines.values())} lines of source; a crate stays under {MOST_CRATE}")
    root = f"{top}/src/main.rt" if os.path.exists(f"{top}/src/main.rt") else f"{top}/src/lib.rt"
    if "#![tactic(auto)]" not in text_of(root):
        faults.append(f"{root}: no line #![tactic(auto)]")
    for path in files_below(f"{top}/must-fail", ".edit"):
        check_edit(top, path, faults)


def check_edit(top, path, faults):
    fields = re.findall(r"^(file|old|new): ?(.*)$", text_of(path), re.M)
    target = [value for field, value in fields if field == "file"]
    olds = [value for field, value in fields if field == "old"]
    if not target or not olds:
        faults.append(f"{path}: wants a line 'file:' and pairs of 'old:' and 'new:'")
        return
    for name in target:
        if not name.startswith("src/"):
            faults.append(f"{path}: edits {name}, and only code may be edited")
            return
    found = text_of(f"{top}/{target[0]}").count(olds[0])
    if found != 1:
        faults.append(f"{path}: its first old text stands {found} times in {target[0]}")


def check_documents(names, faults):
    readme, architecture, definitions = (
        text_of(path) for path in ("README.md", "docs/ARCHITECTURE.md", "docs/DEFINITIONS.md")
    )
    for name in names:
        if f"`{name}`" not in readme:
            faults.append(f"README.md: says nothing of the crate {name}")
        if f"`{name}`" not in architecture:
            faults.append(f"docs/ARCHITECTURE.md: says nothing of the crate {name}")
        for path in files_below(f"crates/{name}/specs", ".antt"):
            topic = os.path.splitext(os.path.basename(path))[0]
            if topic not in ("Lib", "Inside") and f"`{name}::{topic}`" not in definitions:
                faults.append(f"docs/DEFINITIONS.md: says nothing of {name}::{topic}")
    for path in ["README.md", *files_below("docs", ".md")]:
        for link in re.findall(r"\]\(([^)#:]+)(?:#[^)]*)?\)", text_of(path)):
            if not os.path.exists(os.path.join(os.path.dirname(path), link)):
                faults.append(f"{path}: the link {link} leads nowhere")


def check_examples(faults):
    for path in files_below("examples", ".schedule"):
        transcript = path.replace(".schedule", ".transcript")
        if not os.path.exists(transcript):
            faults.append(f"{path}: no transcript beside it")
    program = "crates/taurus"
    if os.path.isdir(program):
        for ours, theirs in (("stdin", "first.schedule"), ("stdout", "first.transcript")):
            if text_of(f"{program}/{ours}") != text_of(f"examples/{theirs}"):
                faults.append(f"{program}/{ours} differs from examples/{theirs}, which it is to be")


def main():
    faults = []
    if text_of("HANDLES").strip() != "Handles allowed: Net.":
        faults.append("HANDLES: not its one line")
    names = crates()
    for name in names:
        check_crate(name, faults)
    check_documents(names, faults)
    check_examples(faults)
    for fault in faults:
        print(fault)
    print("quick checks: " + ("ok" if not faults else f"{len(faults)} to look at"))
    sys.exit(1 if faults else 0)


main()
