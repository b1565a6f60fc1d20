"""Digests of all that the verdict on an edit depends on.

An edit is refused by the proof of the functions that it changes. Such a proof depends on their bodies, on the files of
their proofs, and on the contracts, types, definitions and lemmas to which the names in these and in the edit lead, and
so on from there. These parts make the digest, with the edit, the bodies that it makes, the checker and the kit's logic,
but not the kit's version: an edit shows that a contract is strong enough, and a new version of the prover does not
change the contract. `checks/wrong_bodies --all` tries all edits with the version that is installed.

A part is an item of a Rattle file without bodies, a body, or a definition or a lemma; comments are in no part. Where
it is not known which part a name means, it leads to each that it may mean:
- A term of the logic names what its own file has, and what that imports.
- A Rattle file names what it has itself, what its `use` lines name, and what stands behind `::`; then each item with
  this name in its crate and those below. An item of a type leads to the rest of the type's impls.
- A body calls a function without `self` by its name in the same way, with its type before it if it has one. It calls
  a method by `.name(`, of each type that a part seen so far names.
A body sees the contracts of what it calls, and never another body.
"""
import functools
import hashlib
import re
from collections import defaultdict, namedtuple
from pathlib import Path

from body_edits import Crate
from rattle_source import bare_rattle, functions_in, items_of, name_of_impl, names_in
from workspace import crates_below, run

# What applies an edit, and judges it. (Another reading of the sources shows in the bodies, or in the parts.)
CHECKER = ("wrong_bodies", "body_edits.py", "check_report.py")

# A part of a file of a crate: `calls` if it can call functions.
Part = namedtuple("Part", "crate path text calls", defaults=[False])

COMMENT_LINE, BLANK_LINES = re.compile(r"^[ \t]*--.*\n", re.M), re.compile(r"\n(?:[ \t]*\n)+")
VISIBLE = r"(?:pub(?:\([^)]*\))? )?"
USE = re.compile(rf"^[ \t]*{VISIBLE}use ([^;]*);\n", re.M)
IMPORT = re.compile(
    r"^[ \t]*(?:(?:ghost|unfoldable|pub) )*use (Rattle\.[^\s;{]*?)(?:\.\{([^}]*)\})?(?: as ([^;\s]+))?;?[ \t]*\n", re.M
)
MODULE = re.compile(rf"(?:^#\[cfg\(test\)\]\n|^(#!.*\n)|(?<!\]\n))^{VISIBLE}mod \w+;$", re.M)
RENAMED, ALIAS = re.compile(r"(\w+) as (\w+)"), re.compile(rf"^{VISIBLE}type (\w+)[^=;]*=([^;]*);", re.M)
IMPL_HEAD = re.compile(r"^(?:unsafe )?impl\b[^{]*\{", re.M)
IMPL = re.compile(r"((?:#.*\n)*(?:unsafe )?impl\b([^{]*)\{)\n?((?:.|\n)*)")
ATTRIBUTES = re.compile(r"(?:[ \t]*#.*\n)*.*\Z")
FUNCTION = re.compile(r"\bfn (\w+)")
DECLARED = re.compile(r"\b(?:struct|enum|union|trait|type|const|static|fn|macro_rules!)\s+(\w+)")
VARIANT = re.compile(r"^    (\w+)", re.M)
TYPE = re.compile(rf"^{VISIBLE}(?:struct|enum|union|type) (\w+)", re.M)
CONSTANT = re.compile(r"(?<!')\b(?:const|static) (?!fn)")
DEFINED = r"(?:(?:pub|abbrev|record|data|unfoldable|ruleset) )*([^\s(){}:.,;]+)"
WITHIN = re.compile(r"^ *(?:pub )?(?:data|module) ", re.M)
METHOD = re.compile(r"(?<!\.)(\.\w+)(?=\s*(?:\(|::))")
PATH = re.compile(r"\b(\w+)(::(?:specs|proofs)(?:::\w+)+)")


def pair_of(name):
    """The last two segments of a function's name, which tell it: those before depend on where its impl stands."""
    return tuple(name.split("::")[-2:])


def is_within(pair, names):
    """Whether these names stand side by side in the names of a path, where `fn` is before a function's closures."""
    names = tuple(it for it in names if it != "fn")
    return any(names[at : at + len(pair)] == pair for at in range(len(names)))


def all_of(sets):
    """The union of sets."""
    return frozenset().union(*sets)


def digest_of(values):
    """A digest of values that do not depend on the run."""
    return hashlib.sha256(repr(values).encode()).hexdigest()[:12]


digest_of_part = functools.lru_cache(maxsize=None)(digest_of)


class Sources:
    """The crates of a repository, and their parts by the names that lead to them."""

    def __init__(self, root):
        checker = [Path(root, "checks", name).read_text("utf-8") for name in CHECKER]
        self.checker = digest_of([*checker, run(["rt", "version"]).stdout.partition("logic")[2].strip()])
        self.below = crates_below(root)
        self.crates = {name: Crate(root, name) for name in self.below}
        # by the crate and the name: what leads to a function is `.name` or `::name`
        self.items, self.functions = defaultdict(set), defaultdict(set)
        # by the crate and the path; for the logic also by the name
        self.files, self.in_file, self.imports = defaultdict(set), defaultdict(set), defaultdict(set)
        self.scopes, self.loose, self.bodies = defaultdict(set), {}, defaultdict(list)
        # by the part: the names that it declares, and for a function of a type those that the type may have
        self.declared, self.owners, self.renamed = {}, {}, defaultdict(set)
        texts = {(it.name, path): bare_rattle(text) for it in self.crates.values() for path, text in it.texts.items()}
        self.types = {name for text in texts.values() for name in TYPE.findall(text)}
        for (crate, path), text in texts.items():
            self.take_rattle(crate, path, text)
        for crate in self.crates.values():
            for file in (*crate.folder.glob("specs/**/*.antt"), *crate.folder.glob("proofs/**/*.antt")):
                text = BLANK_LINES.sub("\n\n", COMMENT_LINE.sub("", file.read_text("utf-8") + "\n"))
                self.take_logic(crate.name, str(file.relative_to(crate.folder)), text)

    def take_rattle(self, crate, path, text):
        """Takes the parts of a Rattle file, the bodies of its functions apart."""
        self.take_imports(crate, path, text)
        uses = " ".join(it for it in USE.findall(text) if not it.startswith("std"))
        self.scopes[crate, path] |= {*re.findall(r"\w+|\*", uses)}
        for names, other in (*RENAMED.findall(uses), *(it[::-1] for it in ALIAS.findall(text))):
            self.renamed[other] |= names_in(names)
        impls = [(it.start(), it[0]) for it in IMPL_HEAD.finditer(text)]
        statements, at = [], 0
        for it in functions_in(text, path):
            start = ATTRIBUTES.search(text, at, it.head).start()
            # (an indented function is of the impl before it)
            head = [head for place, head in impls if place < start and text[text.rindex("\n", 0, it.head) + 1] == " "]
            body = Part(crate, path, "\n".join([*head[-1:], text[start : it.end]]), True)
            self.bodies[crate].append((pair_of(it.name), body))
            statements.append(text[at : it.start] + "{}")
            at = it.end
        items = items_of(MODULE.sub(r"\1", USE.sub("", IMPORT.sub("", "".join([*statements, text[at:]])))))
        loose = [item for item in items if not self.take_item(crate, path, item)]
        self.loose[crate, path] = Part(crate, path, "\n".join(loose))

    def take_item(self, crate, path, item):
        """Takes the parts of an item, and tells whether it has a name."""
        impl = IMPL.fullmatch(item)
        if impl:
            self.take_impl(crate, path, *impl.groups())
            return True
        names = {*DECLARED.findall(item), *(VARIANT.findall(item) if re.search(r"\benum \w", item) else ())}
        self.scopes[crate, path] |= names
        part = Part(crate, path, item, bool(CONSTANT.search(item)))
        self.declared[part] = names
        self.put(part, names)
        return bool(names)

    def take_impl(self, crate, path, head, header, inner):
        """Takes the parts of an impl: each function that is no trait's, and the rest, which its types lead to."""
        is_of_trait, rest, named = re.search(r"\bfor\b", header), [head], {*re.findall(r"\b[A-Z]\w*", header)}
        for item in items_of(re.sub(r"^    ", "", inner, flags=re.M)):
            names = FUNCTION.findall(item)
            if names and not is_of_trait:
                part = Part(crate, path, f"{head}\n{item}")
                self.owners[part] = {"Self", *named}
                self.put(part, names)
            else:
                rest.append(item)
        rest = "\n".join(rest)
        named = named & self.types or named | {*FUNCTION.findall(rest)}
        self.scopes[crate, path] |= named
        self.put(Part(crate, path, rest, bool(CONSTANT.search(rest))), {*named, name_of_impl(header)})

    def put(self, part, names):
        """Puts a part of a Rattle file where its names lead."""
        self.files[part.crate, part.path].add(part)
        functions = {*FUNCTION.findall(part.text)}
        for name in names:
            (self.functions if name in functions else self.items)[part.crate, f"::{name}"].add(part)
            if name in functions and re.search(r"\bself\b", part.text):
                self.functions[part.crate, f".{name}"].add(part)

    def take_logic(self, crate, path, text):
        """Takes the parts of a file of the logic: pieces between blank lines, those of a module of it apart."""
        self.take_imports(crate, path, text)
        pieces, common = [], []
        for piece in re.split(r"\n\n(?=\S)", IMPORT.sub("", text).strip("\n")):
            first, where, rest = piece.partition(" where\n") if piece.startswith("module ") else ("", "", piece)
            common += [first] if where else [piece] if piece.startswith("open ") else []
            pieces += re.split(r"\n\n(?=  \S)", rest) if where else [piece]
        for piece in filter(str.strip, pieces):
            part = Part(crate, path, "\n".join([*common, piece.strip("\n")]))
            self.files[crate, path].add(part)
            # (a record's fields, and what is defined within a lemma, are seen by the record and the lemma alone)
            margin = r"\s*" if WITHIN.search(piece) else re.match(r" *", piece.strip("\n"))[0]
            for name in re.findall(rf"^{margin}{DEFINED}", piece, re.M):
                self.in_file[crate, path, name].add(part)
                self.in_file[crate, path, "" if "◌" in name else name].add(part)

    def take_imports(self, crate, path, text):
        """Takes what a file imports of the logic: the names that the file has for it, and where they lead."""
        for base, names, other in IMPORT.findall(text):
            for it in filter(None, re.split(r",\s*", names.strip())) if names else [""]:
                name, _, renamed = it.partition(" as ")
                # (of an operator, its parts are written, and not its name)
                known_as = "" if "◌" in it else other or renamed or name or base.rpartition(".")[2]
                self.imports[crate, path, known_as].add((base, name))

    @functools.lru_cache(maxsize=None)
    def at_path(self, base, name):
        """The parts to which a path of the logic leads, with a name behind it. Where no file has the name, the
        toolchain makes it, of what the path names, or it is not known of what: then of any part of the crate."""
        crate, *segments = base.split(".")[1:]
        if crate not in self.below:
            return frozenset()
        here, names = (crate, "/".join(segments) + ".antt"), (*segments, name)
        found = self.in_file.get((*here, name)) if name else self.files.get(here)
        found = found or all_of(self.at_path(*it) for it in self.imports.get((*here, name), ()))
        # (the file of a folder may pass on another crate's)
        passed_on = self.imports.get((crate, f"{segments[0]}/Lib.antt", "".join(segments[1:2])), ())
        found = found or all_of(self.at_path(".".join([it, *segments[2:]]), name) for it, _ in passed_on)
        if not found:
            made = [self.items.get((crate, f"::{it}"), ()) for it in names]
            made += [{body, *self.items.get((crate, f"::{pair[0]}"), ())}
                     for pair, body in self.bodies[crate] if is_within(pair, names)]
            found = all_of(made)
        return frozenset(found or all_of(parts for (of, _), parts in self.files.items() if of == crate))

    @functools.lru_cache(maxsize=None)
    def named_by(self, part):
        """The parts that a part names, and the methods that it may call."""
        here, words = (part.crate, part.path), names_in(part.text)
        paths = {it for word in (*words, "") for it in self.imports.get((*here, word), ())}
        for crate, rest in PATH.findall(part.text):
            _, *segments, name = rest.split("::")
            paths.add((".".join(["Rattle", part.crate if crate == "crate" else crate, *segments]), name))
        found = all_of(self.at_path(*it) for it in paths)
        found |= all_of(self.in_file.get((*here, word), ()) for word in (*words, ""))
        if here not in self.loose:
            return found, frozenset()
        words |= all_of(self.renamed.get(word, ()) for word in words)
        head, before = IMPL_HEAD.search(part.text), defaultdict(set)
        for word, name in re.findall(r"(\w+|>)(?=\s*::\s*(\w+))", part.text):
            own = names_in(head[0]) if head else {word}
            before[name] |= own if word == "Self" else words if word == ">" else {word, *self.renamed.get(word, ())}
        names = before.keys() | {word for word in words if self.scopes[here] & {word, "*"}}
        found |= {self.loose[here], *self.led(part.crate, self.items, {f"::{name}" for name in names})}
        if not part.calls:
            return found, frozenset()
        # (a function without `self` has the name of its type before its own)
        found |= {it for name in names for it in self.led(part.crate, self.functions, {f"::{name}"})
                  if not self.owners.get(it) or self.owners[it] & before[name]}
        return found, self.led(part.crate, self.functions, set(METHOD.findall(part.text)))

    def led(self, crate, table, keys):
        """The parts of a table to which names lead from a crate."""
        return all_of(table.get((it, key), ()) for it in (crate, *self.below[crate]) for key in keys)

    def seen_by(self, crate, names, texts):
        """The parts that proofs of functions of a crate can depend on, if there are also such texts in its files, by
        their paths."""
        pairs = {pair_of(name) for name in names}
        todo = [part for (of, _), part in self.loose.items() if of == crate]
        todo += [Part(crate, path, text, True) for path, text in texts.items()]
        for pair, body in self.bodies[crate]:
            todo += [body, *self.items.get((crate, f"::{pair[0]}"), ())] if pair in pairs else []
        for (of, path), parts in self.files.items():
            is_own = of == crate and path.startswith("proofs/") and any(is_within(it, path.split("/")) for it in pairs)
            todo += parts if is_own else []
        seen, types, methods = set(), set(), set()
        while todo:
            part = todo.pop()
            if part not in seen:
                seen.add(part)
                found, called = self.named_by(part)
                types |= self.declared.get(part, set())
                methods |= called
                todo += found
                # (a crate above a type's may have impls for it)
                todo += self.led(crate, self.items, {f"::{it}" for it in self.declared.get(part, ())})
            if not todo:
                todo = [it for it in methods - seen if not self.owners.get(it) or self.owners[it] & types]
        return {part for part in seen if part.text.strip()}

    def digest(self, edit):
        """The digest of an edit."""
        seen = self.seen_by(edit.crate.name, edit.functions, dict.fromkeys(edit.texts, "\n".join(edit.lines)))
        bodies = [bare_rattle(body) for body in edit.bodies.values()]
        return digest_of([self.checker, edit.functions, bodies, sorted(map(digest_of_part, seen))])
