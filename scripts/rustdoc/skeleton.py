"""The text of a source as rustdoc reads it: what it declares, on the same lines."""

import re
import textwrap

from pages import linked, quoted

# What no reader of brackets looks into: comments, texts and characters.
OPAQUE = re.compile(r"//[^\n]*|\"(?:\\.|[^\"\\])*\"|'(?:\\[^'\n]*|[^'\\\n])'")
ITEM = re.compile(r"(?P<vis>pub(?:\([^)]*\))? )?(?:unsafe |final |const (?=fn\b))*(?P<kind>ghost|fn|struct|enum|impl|trait|mod|use|const|type)\b ?(?P<name>\w*)")
CLAUSE = re.compile(r"\s*(?:requires|ensures|follows|decreases)\b")
END_OF_HEAD = re.compile(r"\b(?:requires|ensures|follows|decreases)\b|[{;]")
PARAMETER = re.compile(r"('?\w+)(: [^,<>=]*[^,<>= ])?(?: = \w+)?[,>]")
# The modules whose calls a reader looks for first, which come first on their page.
FIRST = ["map", "set", "cache", "create", "insert", "get", "remove"]
FOLDED = '\n\n<details><summary style="cursor: pointer"><b>Contract</b></summary>\n\n<pre><code>{}</code></pre>\n\n</details>'
# rustdoc shows the first paragraph of an impl apart, and so tears a fold there in two.
UNFOLDED = "Contract:\n\n<pre><code>{}</code></pre>"
READ = {"impl": "on_impl", "trait": "on_impl", "fn": "on_fn", "struct": "on_type", "enum": "on_type"}


class Skeleton:
    """A source as rustdoc reads it: `result`. Contracts have `words`, modules are in `folder`."""

    def __init__(self, text, words, folder):
        self.text, self.words, self.result = text, words, text
        self.plain = OPAQUE.sub(lambda it: re.sub(r"[^\n]", " ", it[0]), text)
        self.edits, self.modules, self.derives, self.ends, opened = [], [], [], {}, []
        for it in re.finditer(r"[(\[{]|([)\]}])", self.plain):
            if it[1]:
                self.ends[opened.pop()] = it.end()
            else:
                opened.append(it.start())
        self.items(0, len(text), False)
        order = sorted(self.modules, key=lambda it: FIRST.index(it[2]) if it[2] in FIRST else len(FIRST))
        for (begins, ends, _), it in zip(self.modules, order):
            self.edits.append((begins, ends, f'#[path = "{folder}{it[2]}.rt"] {text[it[0] : it[1]]}'))
        for begins, ends, new in sorted(self.edits, reverse=True):
            self.result = self.result[:begins] + new + self.result[ends:]

    def scan(self, at, stop):
        """Returns the first place from `at` on, outside of brackets, where a pattern matches."""
        while not stop.match(self.plain, at):
            at = self.ends.get(at, at + 1)
        return at

    def blank(self, begins, ends, new=""):
        """Leaves only the ends of lines of a part, behind a new text."""
        self.edits.append((begins, ends, new + "\n" * self.text.count("\n", begins, ends)))

    def document(self, at, contract, folded=True):
        """Puts a contract behind the documentation of the item at a place."""
        if contract.strip():
            shown = (FOLDED if folded else UNFOLDED).format(linked(textwrap.dedent(contract.strip("\n")), self.words))
            self.edits.append((at, at, f"#[doc = {quoted(shown)}] "))

    def items(self, at, ends, of_trait):
        """Reads the items of a file, an impl or a trait, and returns the text of the ghost ones."""
        ghosts, last = "", at
        while self.plain[at:ends].strip():
            at = re.compile(r"\s*").match(self.plain, at).end()
            begins, found = at, ITEM.match(self.plain, at)
            if self.plain[at] == "#":
                at = self.ends[self.plain.index("[", at)]
                self.derives += re.findall(r"\w+", self.text[begins:at])[1:] if self.text.startswith("#[derive", begins) else []
                self.blank(begins, at, self.text[begins:at] if self.text.startswith(("#[inline", "#[doc"), begins) else "")
            elif not found:
                raise ValueError(self.text[at : at + 60])
            elif found["kind"] == "ghost":
                at = self.scan(at, re.compile(";")) + 1
                ghosts += "" if found["name"] == "use" else "\n" + self.text[last:at].strip("\n")
                self.blank(begins, at)
            else:
                at = getattr(self, READ.get(found["kind"], "on_other"))(at, found, of_trait)
            last = at
        return ghosts

    def on_other(self, at, found, of_trait):
        """Keeps a type, a public constant, or a `use`, except from a crate that has no page."""
        ends = self.scan(at, re.compile(";")) + 1
        if found["kind"] == "mod":
            self.modules.append((at, ends, found["name"]))
        elif found["name"] == "lhm_ring" or found["kind"] == "const" and found["vis"] != "pub " and not of_trait:
            self.blank(at, ends)
        return ends

    def on_impl(self, at, found, of_trait):
        """Reads the items of an impl or a trait, and puts the ghost ones into its documentation."""
        opens = self.scan(at, re.compile("{"))
        is_trait = found["kind"] == "trait" or " for " in self.plain[at:opens]
        folded = found["kind"] == "trait" or re.search(r"///.*\n\Z", self.text[:at])
        self.document(at, self.items(opens + 1, self.ends[opens] - 1, is_trait), folded)
        return self.ends[opens]

    def on_fn(self, at, found, of_trait):
        """Moves a contract to the documentation, and takes the body out, or a private function."""
        stops = ends = self.scan(at, END_OF_HEAD)
        while CLAUSE.match(self.plain, ends):
            ends = self.ends[self.plain.index("{", ends)]
        body = self.scan(ends, re.compile("[{;]"))
        behind = self.ends.get(body, body + 1)
        if found["vis"] != "pub " and not of_trait:
            self.blank(at, behind, f"{found['vis'] or ''}fn {found['name']}() {{}}")
            return behind
        stops = at + len(self.plain[at:stops].rstrip())
        self.document(at, self.text[stops:ends])
        self.blank(stops, ends)
        if self.plain[body] == "{":
            self.blank(body + 1, behind - 1, " loop {} ")
        return behind

    def on_type(self, at, found, of_trait):
        """Puts one field for the private ones, and the impls of a derive behind the type."""
        opens = self.scan(at, re.compile("[{;]"))
        behind = self.ends.get(opens, opens + 1)
        body, bounds = self.text[opens + 1 : behind - 1], dict(PARAMETER.findall(self.plain[at:opens].partition("<")[2]))
        if found["kind"] == "struct" and body and not re.search(r"(?m)^ *pub \w+:", body):
            lent = "".join(f"&{it} " for it in bounds if it[0] == "'")
            held = "".join(f"{lent}{it}, " for it in bounds if it[0] != "'")
            self.document(at, "".join(body.partition("\n    ghost ")[1:]))
            self.blank(opens + 1, behind - 1, f" _p: PhantomData<({held}{lent}())> ")
        for trait in self.derives:
            path = {"Debug": "std::fmt::Debug"}.get(trait, trait)
            own = [it + bound if it[0] == "'" or trait == "Drop" else f"{it}{bound + ' +' if bound else ':'} {path}" for it, bound in bounds.items()]
            says = '#[doc = "A value is `Drop` if the type of each field is."] ' if trait == "Drop" else ""
            self.edits.append((behind, behind, f" {says}impl<{', '.join(own)}> {path} for {found['name']}<{', '.join(bounds)}> {{}}"))
        self.derives = []
        return behind
