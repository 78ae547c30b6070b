#!/bin/sh
# Prints each definition that a statement rests on, the statement first: what has to be read to trust it. Each stands with its file and
# its line, once, behind the first one that cites it, so those that say the most come first. At the end stand how many there are, in
# how many lines with the comments in and above them, and how many of each crate. Types and functions of the code, std's words and
# what proofs cite are not printed. NAME is a definition of specs/; where several have the name, CRATE:NAME says which.
# usage: tools/read.sh [--count] NAME    (--count: the numbers alone)
set -eu
cd "$(dirname "$0")/.."
exec python3 - "$@" <<'END'
import collections
import glob
import re
import signal
import sys

BEGIN = re.compile(r"^( *)((?:(?:pub|abbrev|unfoldable|opaque|record|data) +)+|(?=[^\s(){}:=]+ *(?:\([^)]*\) *|\{[^}]*\} *)*: ))([^\s(){}:]+)")
USE = re.compile(r"^ *(?:pub )?(?:unfoldable pub )?use ([^\s{]+?)(?: as ([^\s{]+))?(?:\.\{([^}]*)\})?$", re.M)
Definition = collections.namedtuple("Definition", "path line text words")


class Module:
    """A file of definitions: what each name that it brings in stands for, and its own definitions."""

    def __init__(self, path):
        self.path, self.names, self.own, self.parts = path, {}, {}, {}
        with open(path) as file:
            text = file.read()
        for whole, alias, names in USE.findall(text):
            for name in filter(None, (it.strip() for it in names.split(","))):
                first, _, second = name.partition(" as ")
                self.names[second.strip() or first] = whole, first
            if not names:
                self.names[alias or whole.rsplit(".", 1)[1]] = whole, None
        self.read(text.split("\n"))

    def read(self, lines):
        """Cuts the file into definitions; a comment belongs to what is below it, an indented line to what is above it."""
        name, first, last, depth, comment = None, 0, 0, 0, None
        ends = []
        for number, line in enumerate(lines, 1):
            code = re.sub(r"(^|\s)--.*", "", line)
            indent = len(line) - len(line.lstrip())
            if not code.strip():
                if line.strip():
                    comment = comment or number
                else:
                    comment = None
                continue
            found = None if re.match(r" *(pub )?(unfoldable pub )?(use|module|mod)\b", code) else BEGIN.match(code)
            if found and not (name and indent > depth):
                if name:
                    ends.append((name, first, last))
                name, first, depth = found[3], comment or number, indent
            last, comment = number, None
        if name:
            ends.append((name, first, last))
        for name, first, last in ends:
            text = "\n".join(lines[first - 1 : last])
            code = re.sub(r"(?m)(^|\s)--.*", "", text)
            words = [it.strip(".") for it in re.findall(r"[^\s(){};,]+", code)]
            self.own[name] = Definition(self.path, first, text, words)
            if re.match(r"\s*(?:\w+ +)*(record|data) ", code.lstrip()):
                for part in re.findall(r"(?m)^ +(?:pub +)?([^\s(){}:]+) *:", code):
                    self.parts.setdefault(part, name)


def module_of(modules, path):
    """The module that a path begins with, and the names behind it."""
    names = path.split(".")
    for end in range(len(names), 3, -1):
        if names[0] == "Rattle" and names[2] == "specs":
            file = f"crates/{names[1]}/specs/{'/'.join(names[3:end])}.antt"
            if file in modules:
                return modules[file], names[end:]
    return None, names


def meant(modules, path, name, depth=0):
    """The module and name of what a path and a name lead to, through what modules hand on."""
    module, rest = module_of(modules, path)
    if not module or depth > 8:
        return None
    name = rest[0] if rest else name
    if name in module.own:
        return module, name
    return meant(modules, *module.names[name], depth + 1) if name in module.names and module.names[name][1] else None


def cited(modules, module, name):
    """What a definition names, in the order in which it does."""
    for word in module.own[name].words:
        first, _, rest = word.partition(".")
        if word in module.own:
            found = module, word
        elif word in module.names and module.names[word][1]:
            found = meant(modules, *module.names[word])
        elif rest and first in module.names and not module.names[first][1]:
            found = meant(modules, module.names[first][0], rest.split(".")[0])
        else:
            found = None
        if found and found != (module, name):
            yield found


def main():
    words = [it for it in sys.argv[1:] if it != "--count"]
    if len(words) != 1:
        print("usage: tools/read.sh [--count] NAME", file=sys.stderr)
        return 2
    crate, _, name = words[0].rpartition(":")
    modules = {path: Module(path) for path in sorted(glob.glob("crates/*/specs/**/*.antt", recursive=True))}
    todo = collections.deque((it, name) for path, it in modules.items() if name in it.own and path.startswith(f"crates/{crate}"))
    if len(todo) != 1:
        print(f"{words[0]}: {len(todo)} definitions are named so", *(it.path for it, _ in todo), sep="\n", file=sys.stderr)
        return 1
    signal.signal(signal.SIGPIPE, signal.SIG_DFL)
    seen, lines, comments, crates = set(todo), 0, 0, collections.Counter()
    while todo:
        module, name = todo.popleft()
        definition = module.own[name]
        comment = re.match(r"(?:\s*--.*\n)*", definition.text)[0].count("\n")
        comments += comment
        lines += definition.text.count("\n") + 1 - comment
        crates[module.path.split("/")[1]] += 1
        if "--count" not in sys.argv:
            print(f"{definition.path}:{definition.line}\n{definition.text}\n")
        for found in cited(modules, module, name):
            if found not in seen:
                seen.add(found)
                todo.append(found)
    print(f"{len(seen)} definitions in {lines} lines, {lines + comments} with the comments above them:", ", ".join(f"{crate} {number}" for crate, number in crates.most_common()))
    return 0


sys.exit(main())
END
