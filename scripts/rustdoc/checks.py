"""What is wrong on a site, by what scripts/clauses reads of the sources."""

import collections
import functools
import html
import pathlib
import posixpath
import re
import runpy
import urllib.parse

from pages import sentence_of

CLAUSES = runpy.run_path(str(pathlib.Path(__file__).resolve().parent.parent / "clauses"))
read_clauses, name_of_owner = CLAUSES["read_clauses"], CLAUSES["name_of_owner"]
HREF = re.compile(r'<a [^>]*?href="?([^" >]*)')
ID = re.compile(r'\bid="?([^" >]*)')
SECTION = re.compile(r'<section id="(?:impl-|(?:ty)?method\.(\w+))')
HEAD = re.compile(r"<h3[^>]*>(.*?)</h3>", re.S)
# What a page has only of Rust's std.
OF_RUST = ("synthetic-implementations", "blanket-implementations", "dyn-compatibility", "doc.rust-lang.org/1.95.0/core", "doc.rust-lang.org/1.95.0/std")
# Returns the name of a call or an impl without the paths of types, which pages leave out.
same = functools.partial(re.compile(r"\w+::(?=[A-Z])").sub, "")
IMPL = re.compile(r"(?m)^impl\b[^{]* for [^{]*(?= \{)")
DERIVE = re.compile(r"(?m)^#\[derive\((.*)\)\]\n(?:#.*\n)*pub \w+ (\w+)")
# A type or a trait that is not public, which has no page.
PRIVATE = re.compile(r"(?m)^(?:pub\(crate\) )?(?:struct|enum|trait) (\w+)")
PUBLIC = re.compile(r"(?m)^ *pub (?:unsafe |const |final )*fn \w+")
LEMMA = re.compile(r"(?m)^ *(pub (?:record |data |ruleset )?(?!use |mod )([^\s:]+) .*)")
PASSED_ON = re.compile(r"pub use Rattle\.(?!std)\w+\.proofs\.(?!Callers)[\w.]+\.\{([^}]*)\}")
# The fields of a record, which are no names of their own.
FIELDS = re.compile(r"(?m)^( *)(pub record .*\n)(?:\1 +.*\n)*")


def flat(text):
    """Returns the words of a page."""
    return " ".join(html.unescape(re.sub("<[^>]*>", "", text.replace("<div", " <div"))).split())


def sections_of(pages):
    """Returns the words of each section, by the crate and the name of the call, impl or type."""
    found = collections.defaultdict(str)
    for path, text in pages.items():
        kind, name = path.split("/")[-1].split(".")[:2]
        if path.startswith("src/") or kind not in ("struct", "enum", "trait", "fn"):
            continue
        owner = key = name if kind == "fn" else f"{kind} {name}"
        marks = list(SECTION.finditer(text))
        for begins, ends in zip([None, *marks], [*marks, None]):
            if begins and begins[1]:
                key = f"{owner if ' for ' in owner or kind == 'trait' else re.sub('<.*', '', owner)}::{begins[1]}"
            elif begins:
                owner = key = name_of_owner(flat(HEAD.search(text, begins.start())[1]))
            found[path.split("/")[0], same(key)] += flat(text[begins.start() if begins else 0 : ends.start() if ends else None])
    return found


def faults_of_calls(texts, pages, counts):
    """Yields which functions and clauses are in no section, and which impls are in no source."""
    sections = sections_of(pages)
    impls = {same(name_of_owner(it)) for _, text in texts for it in IMPL.findall(text)}
    # What a derive of `Drop` asks for depends on the fields: the page has it, and no impl.
    impls |= {f"{trait} for {name}" for _, text in texts for traits, name in DERIVE.findall(text) for trait in traits.split(", ") if trait != "Drop"}
    shown = {key for _, key in sections if " for " in key and "::" not in key}
    yield from (f"{it}: in no source" for it in shown - impls if it.split("<")[0] not in impls)
    for library, text in texts:
        # Of each public function, also of one without clauses.
        functions = {it[0] for it in read_clauses(PUBLIC.sub(r"\g<0> ensures named {}", text)) if it[1] == "ensures named"}
        of_private = re.compile(rf"\b({'|'.join(PRIVATE.findall(text)) or '(?!)'})\b")
        found = [it for it in read_clauses(text) if not of_private.search(it[0])]
        counts.update(functions=len(functions), clauses=len(found))
        yield from (f"{library} | {it}: no section" for it in functions if (library, same(it)) not in sections)
        for call, name, begins, ends in found:
            if " ".join(text[begins:ends].split()) not in sections.get((library, same(call)), ""):
                yield f"{library} | {call}: {name}: not word for word"


def faults_of_lemmas(paths, pages, names, counts):
    """Yields which lemmas are not on their page by their heads, or not found by a search."""
    for path in paths:
        page = pages.get("/".join([*path.parts[-4:-1], path.stem, "index.html"]), "")
        text, words = FIELDS.sub(r"\1\2", path.read_text(encoding="utf-8")), flat(page)
        lemmas = LEMMA.findall(text) + [("", it) for passed in PASSED_ON.findall(text) for it in re.findall(r"[^\s,]+", passed)]
        counts.update(lemmas=len(lemmas))
        missed = [it for head, it in lemmas if " ".join(head.split()) not in words or f'id="{it}"' not in page or it not in names]
        yield from (f"{path.parts[-4]} | {path.stem}: {it}: not there by its head, or not found" for it in missed)


def faults_of_links(pages, files, counts):
    """Yields which links lead to no file or no anchor of a page, and what is only of Rust's std."""
    ids = {path: {urllib.parse.unquote(html.unescape(it)) for it in ID.findall(text)} for path, text in pages.items()}
    for path, text in pages.items():
        yield from (f"{path}: has {it}" for it in OF_RUST if it in text)
        links = {it for it in HREF.findall(text) if not re.match("https?:|javascript:", it)}
        counts.update(links=len(links))
        for link in links:
            target, _, anchor = urllib.parse.unquote(html.unescape(link)).partition("#")
            to = posixpath.normpath(posixpath.join(posixpath.dirname(path), target)) if target else path
            wanted = set(re.split(r"(?<=\d)-(?=\d)", anchor) if to.startswith("src/") else [anchor]) - {""}
            if to not in files or to in ids and not wanted <= ids[to]:
                yield f"{path}: {link}: leads nowhere"


def faults_of_libraries(root, libraries, pages, version):
    """Yields which libraries are not on the first page, with what each is, or have no version."""
    for it in libraries:
        if f"{it}: {sentence_of(root, it)}" not in flat(pages["index.html"]):
            yield f"index.html: {it}: not there"
        if version not in flat(pages[f"{it}/index.html"]):
            yield f"{it}/index.html: no version {version}"


def faults_of(root, libraries, site, version):
    """Returns what is wrong on a site, and how much was looked at."""
    crates, counts = [root / "crates" / it for it in libraries], collections.Counter()
    pages = {str(it.relative_to(site)): it.read_text(encoding="utf-8") for it in site.rglob("*.html")}
    texts = [(crate.name, it.read_text(encoding="utf-8")) for crate in crates for it in sorted(crate.glob("src/**/*.rt"))]
    lemmas = [it for crate in crates for it in sorted(crate.glob("proofs/Callers/*.antt"))]
    names = "".join(it.read_text(encoding="utf-8") for it in site.glob("search.index/name/*"))
    # The links in scripts of impls are from the root of the site.
    pages.update({it.name: it.read_text(encoding="utf-8").replace('\\"', '"').replace("\\n", " ") for it in site.glob("type.impl/**/*.js")})
    files = {*pages, *(str(it.relative_to(site)) for it in site.rglob("*"))}
    faults = [*faults_of_calls(texts, pages, counts), *faults_of_lemmas(lemmas, pages, names, counts), *faults_of_links(pages, files, counts)]
    faults += faults_of_libraries(root, libraries, pages, version)
    return faults, f"{', '.join(f'{number} {it}' for it, number in counts.items())} of {' '.join(libraries)}"
