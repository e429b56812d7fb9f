"""The sources of the program for one command: those of crates/seatdesk and of the crates that are parts of it, as modules of one crate, without
the other commands, and those of the crates that are still named, in a folder that is a repository of its own.

It leaves out
  - of each match the arms `Job::NAME => ..` of the other commands,
  - the bodies of the functions that BODILESS names,
  - each function that nothing reaches from `main` any more,
  - each crate of which nothing is named any more, and the impls of its traits.
Where a rule finds nothing, because the sources are written otherwise by now, more is left in: that takes longer to compile, and
does the same.
"""
import functools
import os
import re
import shutil

PROGRAM = "seatdesk"
# Crates of the program's own, on which no library stands: their functions are looked through as the program's are.
PARTS = ["command_inputs", "question_commands", "journal_commands", "host_commands"]
# What stands for audits with scripts and for a season, which the caller refuses.
BODILESS = ["audit_against", "started"]
NOTHING = "{ unreachable!() }"

PASSED_OVER = re.compile(
    r"""//[^\n]*|/\*.*?\*/|b?r(?P<hashes>\#*)".*?"(?P=hashes)|b?"(?:\\.|[^"\\])*"|b?'(?:\\[^'\n]+|[^'\\\n])'""",
    re.S,
)
ITEM = re.compile(
    r"(?:pub(?:\([^)]*\))?\s+)?(?:(?:ghost|unsafe|async)\s+)?(?:const\s+(?=fn\b))?"
    r"(?P<kind>use|mod|fn|const|static|struct|enum|impl|trait|type)\b\s*(?P<name>\w*)"
)
COMMAND = re.compile(r"Job::(\w+)\s*")
OR = re.compile(r"\s*\|\s*")
ARROW = re.compile(r"\s*=>\s*")
CLAUSES = re.compile(r"\s*(?:(?:requires|ensures|decreases)\b[^{;]*)?\{")
ENDS_AT_SEMICOLON = ("use", "const", "static", "type")


@functools.lru_cache(maxsize=None)
def blanked(text):
    """The text with blanks for comments, strings and characters, each at its place."""
    return PASSED_OVER.sub(lambda it: re.sub(r"[^\n]", " ", it[0]), text)


def closing(code, at):
    """Where the bracket at this place closes."""
    depth = 0
    for i in range(at, len(code)):
        if code[i] in "([{":
            depth += 1
        elif code[i] in ")]}":
            depth -= 1
            if depth == 0:
                return i
    raise ValueError(f"a bracket does not close: {code[at:at + 60]}")


def behind_blanks(code, at):
    while at < len(code) and code[at].isspace():
        at += 1
    return at


def with_comments(text, begin):
    """Where the comments right above this place begin, but for those that are of the whole file."""
    while True:
        above = text.rfind("\n", 0, max(begin - 1, 0)) + 1
        line = text[above:begin].strip()
        if above == begin or not line.startswith("//") or line.startswith("//!"):
            return begin
        begin = above


class Item:
    """An item of a file: where it begins (with its comments and attributes) and ends, where its last block begins, and what it is."""

    def __init__(self, begin, at, block, end, kind, name):
        self.begin, self.at, self.block, self.end, self.kind, self.name = begin, at, block, end, kind, name


@functools.lru_cache(maxsize=None)
def items(text):
    """The items of a file, in order."""
    code = blanked(text)
    found = []
    at = behind_blanks(code, 0)
    while at < len(code):
        begin = at
        while code.startswith("#", at):
            is_of_file = code.startswith("#!", at)
            at = behind_blanks(code, closing(code, code.index("[", at)) + 1)
            begin = at if is_of_file else begin
        head = ITEM.match(code, at)
        kind = head["kind"] if head else ""
        end, block = at, None
        while end < len(code) and code[end] != ";":
            if code[end] in "([{":
                is_block = code[end] == "{" and kind not in ENDS_AT_SEMICOLON
                block = end if is_block else block
                end = closing(code, end)
                if is_block and not CLAUSES.match(code, end + 1):
                    break
            end += 1
        if at < len(code):
            found.append(Item(with_comments(text, begin), at, block, end + 1, kind, head["name"] if head else ""))
        at = behind_blanks(code, end + 1)
    return found


def leaves(tree):
    """The paths of `a::{b, c::{d, self}}`, each with the name that it has in the file."""
    tree = tree.strip()
    brace = tree.find("{")
    if brace < 0:
        whole, _, name = tree.partition(" as ")
        path = [it.strip() for it in whole.split("::")]
        if path[-1] == "self":
            path.pop()
        return [(path, name.strip() or path[-1])]
    front = [it.strip() for it in tree[:brace].split("::") if it.strip()]
    parts, depth, part = [], 0, ""
    for it in tree[brace + 1 : closing(tree, brace)]:
        depth += (it == "{") - (it == "}")
        if it == "," and depth == 0:
            parts.append(part)
            part = ""
        else:
            part += it
    parts.append(part)
    return [(front + path, name) for it in parts if it.strip() for path, name in leaves(it)]


def uses(text):
    """The items `use ..;` of a file, each with what stands ahead of its paths, and its paths."""
    code = blanked(text)
    for item in items(text):
        if item.kind == "use" and not code[item.at :].startswith("ghost"):
            ahead, _, tree = code[item.at : item.end - 1].partition("use ")
            yield item, ahead, leaves(tree)


def spelled(ahead, ways):
    """An item `use ..;` for each of these paths."""
    return "\n".join(f"{ahead}use {'::'.join(way)}{'' if name == way[-1] else f' as {name}'};" for way, name in ways)


def cut(text, spans):
    """The text with another in the place of each (begin, end, other)."""
    for begin, end, other in sorted(spans, reverse=True):
        text = text[:begin] + other + text[end:]
    return text


def pattern(code, at):
    """The commands of a pattern that begins here, of which several stand with | between them, in small letters, and where it ends."""
    names = set()
    while True:
        name = COMMAND.match(code, at)
        if not name:
            return names, at
        names.add(name[1].lower())
        at = closing(code, name.end()) + 1 if code[name.end()] in "({" else name.end()
        more = OR.match(code, at)
        if not more:
            return names, at
        at = more.end()


def without_arms(text, wanted):
    """The text with nothing behind each arm of commands among which the wanted one is not."""
    code = blanked(text)
    spans = []
    arm = COMMAND.search(code)
    while arm:
        names, at = pattern(code, arm.start())
        arm = COMMAND.search(code, at)
        arrow = ARROW.match(code, at)
        if wanted in names or not arrow:
            continue
        at = arrow.end()
        if code[at] == "{":
            spans.append((at, closing(code, at) + 1, NOTHING))
            continue
        while code[at] not in ",}":
            at = closing(code, at) + 1 if code[at] in "([{" else at + 1
        spans.append((arrow.end(), at, NOTHING))
    return cut(text, spans)


def without_bodies(text):
    spans = [(it.block, it.end, NOTHING) for it in items(text) if it.kind == "fn" and it.name in BODILESS]
    return cut(text, spans)


class Sources:
    """The program's files by the path of their module."""

    def __init__(self, folder):
        self.files = {}
        for here, _, names in os.walk(folder):
            for name in names:
                if name.endswith(".rt"):
                    path = os.path.relpath(os.path.join(here, name), folder)
                    with open(os.path.join(here, name), encoding="utf-8") as it:
                        self.files[path] = it.read()

    def add_part(self, name, folder):
        """Makes a module of a crate: its root is the module's file, and its paths begin there."""
        others = "|".join(PARTS)
        for path, text in Sources(folder).files.items():
            text = re.sub(r"\bcrate::(?!proofs\b)", f"crate::{name}::", text)
            text = re.sub(rf"(?<![:\w])({others})::", r"crate::\1::", text)
            if path == "lib.rt":
                text = re.sub(r"^#!\[.*\n", "", text, flags=re.M)
                text = re.sub(r"^pub use (?=\w)", f"pub use crate::{name}::", text, flags=re.M)
                path = f"{name}.rt"
            else:
                path = f"{name}/{path}"
            self.files[path] = text
        self.files["main.rt"] = re.sub(r"^(?=mod )", f"mod {name};\n", self.files["main.rt"], count=1, flags=re.M)

    def change(self, how, *more):
        for path, text in self.files.items():
            self.files[path] = how(text, *more)

    def functions(self):
        return {(path, it.name): it for path, text in self.files.items() for it in items(text) if it.kind == "fn"}

    def file_of(self, module):
        """The file of a module, by its own name."""
        for path in self.files:
            if os.path.basename(path) == f"{module}.rt" or path.endswith(f"{module}/mod.rt"):
                return path
        return None

    def origin(self, file, name, known, imported):
        """The file in which a function stands that a file names or gives on."""
        for _ in PARTS:
            if (file, name) in known:
                break
            file = imported.get(file, {}).get(name, file)
        return file

    def called(self, path, begin, end, known, imported):
        """The functions of the program that a piece of a file names."""
        code = blanked(self.files[path])
        for word in re.finditer(r"\b\w+\b", code[begin:end]):
            ahead = code[: begin + word.start()].rstrip()[-80:]
            if ahead.endswith("."):
                continue
            module = re.search(r"(\w+)\s*::$", ahead)
            file = self.file_of(module[1]) if module else path
            file = file if (file, word[0]) in known or module else imported[path].get(word[0], file)
            file = self.origin(file, word[0], known, imported)
            if (file, word[0]) in known:
                yield file, word[0]

    def given(self, way, known, imported):
        """The function that a path of a `use` names, by its file."""
        return self.origin(self.file_of(way[-2]), way[-1], known, imported), way[-1]

    def without_unreached(self):
        """Drops each function that nothing reaches, and its name from each `use`."""
        known = self.functions()
        imported = {
            path: {name: self.file_of(way[-2]) for _, _, ways in uses(text) for way, name in ways if len(way) > 1}
            for path, text in self.files.items()
        }
        reached = set()
        to_do = [("main.rt", "main")] if ("main.rt", "main") in known else list(known)
        for path, text in self.files.items():
            for it in items(text):
                if it.kind not in ("fn", "use", "mod"):
                    to_do += self.called(path, it.at, it.end, known, imported)
        while to_do:
            path, name = to_do.pop()
            if (path, name) not in reached:
                reached.add((path, name))
                it = known[path, name]
                to_do += self.called(path, it.at, it.end, known, imported)
        gone = set(known) - reached
        for path, text in self.files.items():
            spans = [(it.begin, it.end, "") for it in items(text) if (path, it.name) in gone and it.kind == "fn"]
            for item, ahead, ways in uses(text):
                kept = [it for it in ways if len(it[0]) < 2 or self.given(it[0], known, imported) not in gone]
                if len(kept) < len(ways):
                    spans.append((item.at, item.end, spelled(ahead, kept)))
            self.files[path] = cut(text, spans)

    def named(self, crates):
        """Those of the crates of which something is named, but for a trait at the head of its impl."""
        found = set()
        for path, text in self.files.items():
            code = blanked(text)
            for it in items(text):
                if it.kind == "use" or code[it.at :].startswith("ghost use"):
                    code = code[: it.at] + " " * (it.end - it.at) + code[it.end :]
                elif it.kind == "impl":
                    head = re.compile(r"impl\b[^{]*?\bfor\b").match(code, it.at)
                    if head:
                        code = code[: it.at] + " " * (head.end() - it.at) + code[head.end() :]
            found |= {it for it in crates if re.search(rf"\b{it}\s*::", code)}
            for _, _, ways in uses(text):
                found |= {way[0] for way, name in ways if way[0] in crates and re.search(rf"\b{name}\b", code)}
        return found

    def without_crates(self, gone):
        """Drops what these crates give: their names, and the impls of their traits."""
        for path, text in self.files.items():
            names = {name for _, _, ways in uses(text) for way, name in ways if way[0] in gone}
            spans = []
            for item, ahead, ways in uses(text):
                kept = [it for it in ways if it[0][0] not in gone]
                if len(kept) < len(ways):
                    spans.append((item.at, item.end, spelled(ahead, kept)))
            for it in items(text):
                head = re.match(r"impl\b(?:\s*<[^{]*?>)?\s*(\w+)[^{]*?\bfor\b", text[it.at : it.end])
                if it.kind == "impl" and head and head[1] in names:
                    spans.append((it.begin, it.end, ""))
            self.files[path] = cut(text, spans)

    def write(self, folder):
        for path, text in self.files.items():
            os.makedirs(os.path.dirname(os.path.join(folder, path)), exist_ok=True)
            with open(os.path.join(folder, path), "w", encoding="utf-8") as it:
                it.write(text)


def crates_of(root):
    """What each crate of the repository uses, by crates.txt: the words ahead of the colon, and the crates behind it."""
    found = {}
    with open(f"{root}/crates.txt", encoding="utf-8") as lines:
        for line in lines:
            ahead, colon, behind = line.partition("#")[0].partition(":")
            if colon and ahead.strip():
                found[ahead.split()[0]] = (ahead, behind.split())
    return found


def make(root, room, command, is_utf_8):
    """Writes the sources for this command of the repository `root` to the folder `room`, and answers the crates of the repository
    that are in it. The program has no environment there, so it is told whether its locale is one of UTF-8."""
    crates = crates_of(root)
    ahead, used = crates[PROGRAM]
    parts = [it for it in PARTS if it in crates]
    used = [it for it in dict.fromkeys(sum((crates[it][1] for it in [*parts, PROGRAM]), [])) if it not in parts]
    sources = Sources(f"{root}/crates/{PROGRAM}/src")
    for part in parts:
        sources.add_part(part, f"{root}/crates/{part}/src")
    sources.change(without_arms, command)
    sources.change(without_bodies)
    if is_utf_8:
        sources.change(lambda text: cut(text, [(it.block, it.end, "{ true }") for it in items(text) if it.name == "is_utf_8"]))
    sources.change(lambda text: cut(text, [(it.block, it.end, "{ None }") for it in items(text) if it.name == "season_asked"]))
    sources.without_unreached()
    named = sources.named(used)
    below, to_do = [], sorted(named & set(crates))
    while to_do:
        name = to_do.pop()
        if name not in below:
            below.append(name)
            to_do += [it for it in crates[name][1] if it in crates]
    # what lies below a crate that stays is there, and so are the traits that it gives
    named |= set(used) & set(below)
    sources.without_crates(set(used) - named)
    os.makedirs(f"{room}/.git")
    sources.write(f"{room}/crates/{PROGRAM}/src")
    for name in below:
        shutil.copytree(f"{root}/crates/{name}/src", f"{room}/crates/{name}/src")
    with open(f"{room}/crates.txt", "w", encoding="utf-8") as it:
        it.write(f"{ahead}: {' '.join(n for n in used if n in named)}\n")
        it.writelines(f"{crates[name][0]}: {' '.join(crates[name][1])}\n" for name in below)
    if os.path.isfile(f"{root}/HANDLES"):
        shutil.copy(f"{root}/HANDLES", room)
    return below
