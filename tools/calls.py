"""Whether a room calls a public function of another.

A function without a type is called as `room::name(`, or by its name where the file has `use room::name` or that name among others,
`use room::{other, name}`. One with a type is
called as `Type::name(`, or, where it takes a self, as `.name(`. Where the caller knows several types with a function of that
name, what stands before the point must be of this type, by the caller's own words: a parameter, of a closure too, a field, a `let` of either, or
what a pattern takes out of a case of an enum.
"""
import re

from source import functions, known, without_comments

PUBLIC = r"(?:pub(?:\(crate\))? )?"
TYPE = r"[&\[]*(?:mut )?(?:\w+::)*([A-Z]\w*)"


class Calls:
    def __init__(self, root, crates):
        """`crates` has the source files of each room, by room and path."""
        self.known = known(root)
        self.texts = {room: [without_comments(text) for text in files.values()] for room, files in crates.items()}
        self.fields, self.methods, self.cases = {}, {}, {}
        for room, texts in self.texts.items():
            for text in texts:
                self.read(room, text)

    def read(self, room, text):
        """Notes the types of a file's fields and those that have its methods."""
        for body in re.findall(rf"(?ms)^{PUBLIC}struct \w+ \{{$(.*?)^\}}$", text):
            for field, kind in re.findall(rf"(?m)^ *{PUBLIC}(\w+): {TYPE}", body):
                self.fields.setdefault(field, set()).add(kind)
        for body in re.findall(rf"(?ms)^{PUBLIC}enum \w+ \{{$(.*?)^\}}$", text):
            for case, parts in re.findall(r"(?m)^ *(\w+)\(([^()]*)\),", body):
                self.cases.setdefault(case, []).append([re.match(TYPE, part.strip()) for part in parts.split(",")])
        for function in functions(text):
            if function.takes_self:
                self.methods.setdefault(function.name, set()).add((room, function.owner))

    def kinds(self, word, caller):
        """The types that a word can be of in a function, by its own words."""
        if word == "self":
            return {caller.owner}
        parameter = re.search(rf"\b{word}: {TYPE}", caller.head) or re.search(rf"\|(?:[^|]*\s)?{word}: {TYPE}[^|]*\|", caller.body)
        if parameter:
            return {parameter[1]}
        let = re.search(rf"\blet (?:mut )?{word} = (?:{TYPE}(?:::| \{{)|[^;]*?\.(\w+);)", caller.body)
        if let:
            return {let[1]} if let[1] else self.fields.get(let[2], set())
        return self.taken_out(word, caller) or self.fields.get(word, set())

    def taken_out(self, word, caller):
        """The types that a word can be of where a pattern takes it out of a case."""
        found = set()
        for case, parts in re.findall(r"\b[A-Z]\w*::(\w+)\(([^()]*)\)", caller.body):
            names = [part.strip() for part in parts.split(",")]
            if word in names:
                at = names.index(word)
                found |= {kinds[at][1] for kinds in self.cases.get(case, []) if len(kinds) == len(names) and kinds[at]}
        return found

    def by_method(self, room, function, caller_room, text):
        """Whether a file calls a function that takes a self, behind a point."""
        name = function.name
        if not re.search(rf"\.{name}\(", text):
            return False
        near = self.known[caller_room] | {caller_room}
        if {kind for kind in self.methods[name] if kind[0] in near} == {(room, function.owner)}:
            return True
        receiver = re.compile(rf"(\w+)(?:\[[^\]]*\])?\)?\s*\.{name}\(")
        return any(
            function.owner in self.kinds(word, caller) for caller in functions(text) for word in receiver.findall(caller.body)
        )

    def by_name(self, room, function, text):
        """Whether a file calls a function by its path."""
        if function.owner:
            return re.search(rf"\b{function.path}\(", text)
        brought = rf"(?m)^use {room}::(?:{function.name}|\{{(?:[^}}]*[\s,])?{function.name}(?:,[^}}]*)?\}});$"
        used = re.search(brought, text) and re.search(rf"(?<![\w.:]){function.name}\(", text)
        return used or re.search(rf"\b{room}::{function.name}\(", text)

    def is_called(self, room, function):
        """Whether a room that knows this one calls its function."""
        for caller, texts in self.texts.items():
            if room in self.known.get(caller, ()):
                for text in texts:
                    if self.by_name(room, function, text) or function.takes_self and self.by_method(room, function, caller, text):
                        return True
        return False
