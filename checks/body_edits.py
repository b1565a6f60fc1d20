"""A crate's sources with their functions, and edits of them: docs/ARCHITECTURE.md, "Wrong bodies", says what stands in
one."""
import re

from rattle_source import functions_in, functions_named

LINE = re.compile(r"(edit|file|in|old|new|breaks|shape):(?: (.*))?")
BREAKS = re.compile(r"(\S+)(?: of (\S+))?")


class BadEdit(Exception):
    """Why an edit cannot be applied."""


class Crate:
    """A crate as it stands: by path, the text and the functions of each source file; and the name that a check has for
    each function."""

    def __init__(self, root, name):
        self.name, self.folder, self.reported = name, root / "crates" / name, {}
        files = sorted(self.folder.glob("src/**/*.rt"))
        self.texts = {str(file.relative_to(self.folder)): file.read_text("utf-8") for file in files}
        self.functions = {path: functions_in(text, path) for path, text in self.texts.items()}

    def take_names(self, names):
        """Takes the names that a check reports: it has the methods of an impl below the module of the type, wherever
        the impl stands."""
        for name in (it.name for functions in self.functions.values() for it in functions):
            same = [it for it in names if it.split("::")[-2:] == name.split("::")[-2:]]
            self.reported[name] = same[0] if name not in names and len(same) == 1 else name

    def edits(self):
        """Returns its edits. What stands in a file before the first line `edit:` holds for each in the file."""
        edits, folder = [], self.folder / "wrong-bodies"
        for path in sorted(folder.glob("**/*.edits")):
            head, *blocks = re.split(r"^(?=edit:)", path.read_text("utf-8"), flags=re.M)
            for block in blocks:
                edit = Edit(self, path.relative_to(folder).with_suffix("").as_posix(), head + block)
                is_known = any(other.name == edit.name for other in edits)
                edit.fault = "another edit has its name" if is_known else edit.fault
                edits.append(edit)
        return edits

    def texts_with(self, edits):
        """Yields the files whose bodies edits change, each with its text if all of these are made."""
        bodies = sorted((*place, body) for edit in edits for place, body in edit.bodies.items())
        for path in dict.fromkeys(path for path, *_ in bodies):
            text = self.texts[path]
            for function, body in [(self.functions[path][at], it) for of, at, it in reversed(bodies) if of == path]:
                text = text[: function.start] + body + text[function.end :]
            yield path, text


class Edit:
    """An edit of a crate: the file that it stands in, and its name with that of the file; its lines; each source that
    it changes, by path, as it makes it, and each body, by path and number in that file; whether it is loose, and
    changes more than bodies, as a constant or a contract; the names of the functions whose bodies it changes, or of the
    one that has to refuse it if it is loose; the clause that has to refuse it; its line `shape:`; and why it cannot be
    applied, or an empty text."""

    def __init__(self, crate, file, lines):
        self.crate, self.file, self.name = crate, f"{crate.name}/{file}", f"{crate.name}/{file}"
        self.lines, self.texts, self.bodies = [*filter(str.strip, lines.split("\n"))], {}, {}
        self.is_loose, self.functions, self.clause, self.shape, self.fault = False, [], "", "", ""
        try:
            breaker = self.read()
            for path, text in self.texts.items():
                self.compare(path, text)
            if self.is_loose:
                every = [it for functions in crate.functions.values() for it in functions]
                self.functions = [the_function(every, breaker, crate.name).name] if breaker else []
            if not self.functions:
                raise BadEdit("it changes no function, nor does 'breaks: CLAUSE of FUNCTION' say where it shows")
            if not self.clause and not self.shape:
                raise BadEdit("no line 'breaks: CLAUSE' says what has to refuse it")
        except BadEdit as why:
            self.fault = str(why)

    def read(self):
        """Applies the pairs of the edit one after the other, and returns the function that its line `breaks:` names."""
        path = function = old = breaker = ""
        for line in self.lines:
            found = LINE.fullmatch(line)
            head, text = found.groups("") if found else ("", "")
            if head == "edit":
                self.name = f"{self.file}/{text.strip()}"
            elif head == "file" and text.strip() in self.crate.texts:
                path, function = text.strip(), ""
            elif head == "in":
                function = text.strip()
            elif head == "old":
                old = text
            elif head == "new":
                before = self.texts.get(path, self.crate.texts.get(path, ""))
                self.texts[path], old = replaced(before, path, function, old, text), ""
            elif head == "breaks" and BREAKS.fullmatch(text.strip()):
                self.clause, breaker = BREAKS.fullmatch(text.strip()).groups("")
            elif head == "shape":
                self.shape = text.strip()
            else:
                raise BadEdit(f"a line is none of an edit: {line}")
        return breaker

    def compare(self, path, text):
        """Finds what the edit changes in a file."""
        before, old, new = self.crate.texts[path], self.crate.functions[path], functions_in(text, path)
        self.is_loose |= [it.name for it in old] != [it.name for it in new] or beside(before, old) != beside(text, new)
        for number, (was, now) in enumerate(zip(old, new)):
            if before[was.start : was.end] != text[now.start : now.end]:
                self.bodies[path, number] = text[now.start : now.end]
                self.functions.append(was.name)


def the_function(functions, name, where):
    """Returns the one function with a name."""
    found = functions_named(functions, name)
    if len(found) != 1:
        raise BadEdit(f"{name} names {len(found)} functions of {where}, and not one")
    return found[0]


def replaced(text, path, name, old, new):
    """Returns a text with the one place of an old text replaced, in the body of a function where one is named."""
    start, end = the_function(functions_in(text, path), name, path)[2:] if name else (0, len(text))
    count = text.count(old, start, end) if old else 0
    if count != 1:
        raise BadEdit(f"an 'old:' text is in {f'the body of {name}' if name else path} {count} times, and not once")
    at = text.index(old, start, end)
    return text[:at] + new + text[at + len(old) :]


def beside(text, functions):
    """Returns the parts of a text that are in no function's body."""
    starts, ends = [0, *(it.end for it in functions)], [*(it.start for it in functions), len(text)]
    return [text[start:end] for start, end in zip(starts, ends)]
