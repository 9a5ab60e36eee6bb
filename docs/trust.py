#!/usr/bin/env python3
"""docs/TRUST.md: for each public promise the definitions that a reader has to believe, in reading order: each file
stands behind those that it uses.

trust.py          writes the page
trust.py --check  fails where the page isn't what the sources give

A promise is a public function. The names in its clauses are looked up by the imports of its file, and so on through
the definitions of specs/; what the toolchain's own library defines is counted by name, not followed."""
import os
import re
import sys

ROOT = os.path.dirname(os.path.dirname(os.path.abspath(__file__)))
PAGE = os.path.join(ROOT, "docs", "TRUST.md")
PROMISES = [
    ("the program", "plcr_tool", "top", "top"),
    ("`report`", "plcr_tool", "report", "report_command"),
    ("`show`", "plcr_tool", "show", "show_command"),
    ("`make`", "plcr_maker", "command", "make_command"),
    ("`threads`", "plcr_workers", "command", "threads_command"),
    ("a capture", "plcr_encode", "report", "capture"),
    ("reading a report file", "plcr_decode", "reader", "decode"),
    ("a load of the image list", "plcr_imagelist", "writer", "Writer::load"),
    ("an unload", "plcr_imagelist", "writer", "Writer::unload"),
    ("a step of a walk", "plcr_imagelist", "hold", "Hold::next"),
]
WORD = re.compile(r"[^\s(){}\[\],;.:]+")


def crate_file(crate, module, where):
    return os.path.join(ROOT, "crates", crate, where, *module.split("."))


class Module:
    """The definitions of one file of specs/, and what it imports."""

    def __init__(self, crate, path):
        self.crate, self.path = crate, path
        text = open(path, encoding="utf-8").read()
        self.imports = imports_of(text)
        self.blocks = {}
        for block in re.split(r"\n\s*\n", text):
            lines = [line for line in block.split("\n") if not line.startswith("use ")]
            code = [line for line in lines if not line.startswith("--")]
            if not code:
                continue
            head = re.match(r"(?:unfoldable |abbrev |pub |private )*(?:record |data |class )?(\S+)", code[0])
            if head and not code[0].startswith(("infix", "pub mod")):
                self.blocks[head.group(1)] = "\n".join(line for line in lines if line.strip())
            for line in code:
                also = re.match(r"(?:unfoldable |abbrev |pub |private )+(?:record |data )?(\S+) :", line)
                if also:
                    self.blocks.setdefault(also.group(1), "\n".join(lines))


def imports_of(text):
    """Each imported name with the module it is of."""
    names = {}
    for found in re.finditer(r"use Rattle\.([\w.\-+]+?)(?:\.\{([^}]*)\}| as (\w+))?;?\s*(?:\n|$)", text):
        module, group, alias = found.groups()
        if group is not None:
            for name in group.split(","):
                names[name.strip()] = module
        elif alias:
            names[alias] = module
    return names


modules = {}


def module_of(name):
    """The module of this name, where it is a file of specs/ of this repository."""
    if name not in modules:
        parts = name.split(".")
        path = crate_file(parts[0], ".".join(parts[2:]), "specs") + ".antt" if parts[1:2] == ["specs"] else ""
        modules[name] = Module(parts[0], path) if os.path.isfile(path) else None
    return modules[name]


def words_of(text):
    found = set()
    for word in WORD.findall(re.sub(r"--[^\n]*", "", text)):
        found.add(word)
        found.add("◌" + word + "◌")
        found.add(word.split(".")[0])
    return found


def visit(name, module_name, seen, order):
    """Adds a definition behind those that it stands on."""
    key = (module_name, name)
    if key in seen:
        return
    seen.add(key)
    if ".specs.declared." in module_name:
        order.append((module_name, name, 0))
        return
    module = module_of(module_name)
    if module is None or name not in module.blocks:
        order.append((module_name, name, 0))
        return
    block = module.blocks[name]
    for word in sorted(words_of(block)):
        if word in module.imports:
            visit(word, module.imports[word], seen, order)
        elif word in module.blocks and word != name:
            visit(word, module_name, seen, order)
    order.append((module_name, name, block.count("\n") + 1))


def clauses_of(crate, source, function):
    path = crate_file(crate, source, "src") + ".rt"
    text = open(path, encoding="utf-8").read()
    name = function.split("::")[-1]
    found = re.search(r"\n( *)pub fn " + name + r"\b.*?\n\1\{\n", text, re.S)
    if not found:
        raise SystemExit(f"{crate}: {function} is not in {source}.rt")
    clauses = re.findall(r"\b(?:requires|ensures)\b[^{]*\{(.*?)\}\s*(?=requires|ensures|\{\n|$)", found.group(0), re.S)
    return imports_of(text.replace("ghost ", "")), "\n".join(clauses)


def reading_order(groups):
    """The files of these definitions, each behind those that it uses."""
    begun, order = set(), []

    def place(name):
        begun.add(name)
        module = module_of(name)
        for definition in groups[name]:
            for word in sorted(words_of(module.blocks.get(definition, ""))):
                used = module.imports.get(word)
                if used in groups and used not in begun:
                    place(used)
        order.append(name)

    for name in groups:
        if name not in begun:
            place(name)
    return order


def page():
    out = ["# What has to be believed", "",
           "For each promise of the program: the definitions that its contract stands on, file by file, each file",
           "behind those that it uses, with their lines. Made from the sources by `docs/trust.py`, which with `--check`",
           "fails where this page is stale. Beside these lines the toolchain and its library are believed.", ""]
    for title, crate, source, function in PROMISES:
        imports, text = clauses_of(crate, source, function)
        seen, order = set(), []
        for word in sorted(words_of(text)):
            if word in imports:
                visit(word, imports[word], seen, order)
        groups, lines = {}, 0
        for module, name, count in order:
            if module_of(module) is not None:
                groups.setdefault(module, []).append(name)
                lines += count
        types = sorted({(m.split(".")[0], n) for m, n, _ in order if ".specs.declared." in m and n[:1].isupper()})
        out += [f"## {title}: `{crate}::{function}`", "",
                f"{lines} lines of definitions in {len(groups)} files.", ""]
        for module in reading_order(groups):
            path = "crates/" + module.replace(".specs.", "/specs/", 1).replace(".", "/") + ".antt"
            out.append(f"- [{path}](../{path}): " + ", ".join(f"`{n.replace('◌', '')}`" for n in groups[module]))
        if types:
            out += ["", "Types of the sources: " + ", ".join(f"`{c}::{n}`" for c, n in types) + "."]
        out.append("")
    return "\n".join(out)


def main():
    text = page()
    if "--check" in sys.argv[1:]:
        if not os.path.isfile(PAGE) or open(PAGE, encoding="utf-8").read() != text:
            print("docs/TRUST.md is stale: run docs/trust.py", file=sys.stderr)
            return 1
        return 0
    open(PAGE, "w", encoding="utf-8").write(text)
    return 0


if __name__ == "__main__":
    sys.exit(main())
