"""The pages of definitions, lemmas and documents, links to them, and what is put right on pages."""

import functools
import html
import json
import posixpath
import re

# The head of an item, above its proof, or of a module; and an import that passes names on.
HEAD = re.compile(
    r"(?m)^(?: *--.*\n)*(?P<depth> *)(?:module (?:.|\n)*?where(?=\n)|pub use Rattle\.(?!std)\w+\.(?P<file>proofs\.(?!Callers)[\w.]+)\.\{(?P<passed>[^}]*)\}"
    r"|(?:abbrev |unfoldable )?pub (?:record |data |ruleset )?(?!use |mod )(?P<name>[^\s:]+)(?= |$).*(?:\n(?P=depth) +\S.*)*)"
)
USE = re.compile(r"\buse Rattle\.(\w+)\.([\w.]+)\.\{([^}]*)\}")
# A word of a definition, behind what is none: comments, and names of clauses and fields.
WORD = re.compile(
    r"(?m)(?:--|//) .*|(?:requires|ensures\*?|follows|ghost) [\w-]+(?= ?[{:=])|\.[\w-]+|[<>&]"
    r"|(^ *(?:abbrev |unfoldable )?pub (?:record |data |ruleset )?)(?!use |mod )([^\s:]+)(?= |$)|([^\W\d][\w'-]*)"
)
# What is put right: what is said of Rust alone, a derive, an error without its path, and sources.
DYN = re.compile(r'<h2 id="dyn-compatibility".*?(?=<h2 )|<h3><a href="#dyn-compatibility">.*?</h3>', re.S)
RUST = re.compile(r'(<title>[^<]* - |<meta name="description" content="[^"]*\bfor the )Rust\b')
DERIVED = re.compile(r'(<h3 class=\\?"code-header\\?">)(?:(?!</h3>).)*(</h3><div class=\\?"docblock\\?"><p>A value is <code>Drop</code> if the type of each field)')
IO_ERROR = re.compile(r"(?<= for )Error(?=</h3>)|(?<=-&gt; )Error(?=</h4>)")
CODE = re.compile(r"<code>.*</code>(?=</pre></div></section>)", re.S)
COMMENT = re.compile(r"(?://|-- ).*")
MODULES = re.compile(r"\b(\w+)/(?:\w+/)+(\w+\.\w+\.html)")
NAMED = re.compile(r"<code>((?:docs/)?[A-Z]+\.md)</code>")
# Returns a text as a literal of Rust, on one line.
quoted = functools.partial(json.dumps, ensure_ascii=False)


def heads_of(crate, file, wanted=()):
    """Returns the heads of a file, or those wanted, in their modules, and their names."""
    text, lines, names, modules = (crate / f"{file}.antt").read_text(encoding="utf-8"), "", [], {}
    for it in HEAD.finditer(text):
        depth, shown = len(it["depth"]), "\n" * text.endswith("\n\n", 0, it.start()) + it[0] + "\n"
        if it["file"]:
            there, passed = ("", []) if wanted else heads_of(crate, it["file"].replace(".", "/"), re.findall(r"[^\s,]+", it["passed"]))
            lines, names = lines + (f"{shown}{there}\n" if passed else ""), names + passed
        elif not it["name"]:
            modules = {**{at: module for at, module in modules.items() if at < depth}, depth: shown}
        elif not wanted or it["name"] in wanted:
            lines += "".join(modules.pop(at) for at in sorted(modules) if at < depth) + shown
            names.append(it["name"])
    return lines, names


def read_definitions(root, libraries):
    """Returns what is shown of each file of definitions and lemmas, its names, and its text."""
    found = {}
    for crate in (root / "crates" / it for it in libraries):
        for path in sorted([*crate.glob("specs/*.antt"), *crate.glob("proofs/Callers/*.antt")]):
            text, name = path.read_text(encoding="utf-8"), str(path.relative_to(crate))[:-5]
            lines, names = heads_of(crate, name)
            if names:
                found[crate.name, name] = text if name.startswith("specs/") else lines, names, text
    return found


def words_of(text, definitions):
    """Returns the page and anchor of each name that a text imports."""
    words = {}
    for library, path, names in USE.findall(text):
        page = library, path.replace(".", "/")
        there = definitions[page][1] if page in definitions else []
        words.update({it: f"site:{library}/{page[1]}/index.html#{it}" for it in re.findall(r"[^\s,]+", names) if it in there})
    return words


def linked(text, words, own=()):
    """Returns a text as HTML, with links from its words, and anchors at the heads of its own."""
    def shown(it):
        if it[2] in own:
            return f'{it[1]}<b id="{it[2]}">{it[2]}</b>'
        return f'<a href="{words[it[3]]}">{it[3]}</a>' if it[3] in words else html.escape(it[0], quote=False)
    return WORD.sub(shown, text)


def page_of(library, name, definitions):
    """Returns the text of the module that stands for a file of definitions."""
    shown, names, text = definitions[library, name]
    about = re.match(r"(?:-- .*\n)*", text)[0]
    lines = linked(shown.removeprefix(about).strip("\n"), {**words_of(text, definitions), **{it: f"#{it}" for it in names}}, names)
    body = " ".join(it[3:] for it in about.splitlines()) or name
    body += f"\n\nImported from `Rattle.{library}.{name.replace('/', '.')}`.\n\n<pre><code>{lines}</code></pre>"
    alias = ", ".join(quoted(it) for it in dict.fromkeys(names) if it != name.split("/")[-1])
    return f"#![doc = {quoted(body)}] " + (f"#![doc(alias({alias}))]" if alias else "") + "\n" * text.count("\n")


def modules_of(library, definitions, folder=""):
    """Returns the modules of the pages of a crate below a folder, on one line."""
    names, text = [name[len(folder) :] for of, name in definitions if of == library and name.startswith(folder)], ""
    for part in dict.fromkeys(name.split("/")[0] for name in names):
        if part in names:
            text += f'#[path = "{folder}{part}.antt"] pub mod {part}; '
        else:
            about = "The definitions that contracts name." if part == "specs" else "Lemmas that the proofs of callers cite."
            text += f'#[doc = "{about}"] #[path = "."] pub mod {part} {{ {modules_of(library, definitions, f"{folder}{part}/")}}} '
    return text


def documents_of(root, libraries):
    """Returns the documents of a repository, and the page of the site that each is. Where there are
    only copies of the libraries, README.md and docs/ are of something else."""
    names = {f"crates/{it}/README.md": f"{it}/" for it in libraries}
    if not (root / "crates" / "linked_hash_map" / "VENDORED").is_file():
        docs = sorted((root / "docs").glob("*.md"))
        names = {"README.md": "", **{f"docs/{it.name}": f"{it.stem}/" for it in docs}, **names}
    return {it: f"documents/{name}index.html" for it, name in names.items() if (root / it).is_file()}


def library_of(root, documents, libraries):
    """Returns the text of the library whose modules stand for the documents. What leads from one to
    no page of the site is text alone."""
    def link(document, it):
        name, sign, anchor = it[2].partition("#")
        name = posixpath.normpath(posixpath.join(posixpath.dirname(document), name)) if name else document
        source = re.match(r"crates/(\w+)/src/(.*\.rt)", name)
        if name in documents:
            return f"{it[1]}(site:{documents[name]}{sign}{anchor})"
        if source and source[1] in libraries:
            return f"{it[1]}(site:src/{source[1]}/{source[2]}.html)"
        return f"{it[1]}(site:{name})" if it[1][0] == "!" else it[0] if it[2].startswith("http") else it[1][1:-1]

    text = "#![doc(html_no_source)]"
    for document, page in documents.items():
        said = (root / document).read_text(encoding="utf-8")
        said = quoted(re.sub(r"(!?\[[^\]]*\])\(([^()\s]*)\)", functools.partial(link, document), said))
        name = page.split("/")[1]
        text += f"\n#![doc = {said}]" if name == "index.html" else f"\n#[doc = {said}] pub mod {name} {{}}"
    return text + "\n"


def sentence_of(root, library):
    """Returns the first sentence of the documentation of a library."""
    text = (root / "crates" / library / "src" / "lib.rt").read_text(encoding="utf-8")
    return re.match(r".*?\.(?= |$)", " ".join(re.findall(r"(?m)^//! (.*)", text)))[0].replace("`", "")


def first_page(text, root, documents):
    """Returns the first page of the site with a sentence behind each library, and the documents."""
    link = re.compile(r'href="(?!documents/)(\w+)/index.html">\1</a>')
    text = link.sub(lambda it: f"{it[0]}: {html.escape(sentence_of(root, it[1]))}", text)
    links = "".join(f'<li><a href="{page}">{it}</a></li>' for it, page in documents.items())
    return re.sub(r"</ul>(?=</section>)", f'</ul><h2>Documents</h2><ul class="all-items">{links}</ul>' if links else "</ul>", text)


def link_to(it, path, documents):
    """Returns the name of a document, on a page, as a link. README.md is that of the page's library."""
    page = documents.get(it[1] if "/" in it[1] else f"crates/{path.partition('/')[0]}/{it[1]}")
    return f'<a href="site:{page}">{it[0]}</a>' if page else it[0]


def public_path(it, site):
    """Returns a link of a script to the page itself, not to that of a private module, which has no anchors."""
    page = f"{it[1]}/{it[2]}"
    return page if (site / page).is_file() else it[0]


def put_right(root, site, documents):
    """Changes the links from contracts, derives, what is Rust's alone, and sources on pages, and
    the links of documents."""
    for page in [*site.rglob("*.html"), *site.glob("type.impl/**/*.js")]:
        path, text = str(page.relative_to(site)), page.read_text(encoding="utf-8")
        if path == "index.html":
            text = first_page(text, root, documents)
        elif not path.startswith(("documents/", "src/")):
            text = NAMED.sub(lambda it, path=path: link_to(it, path, documents), text)
        # On some pages rustdoc counts the first heading of its name as the second.
        if 'id="examples"' not in text:
            text = text.replace('examples-1"', 'examples"')
        if page.suffix == ".js":
            text = MODULES.sub(functools.partial(public_path, site=site), text)
        # A script of impls has links from the root of the site.
        text = re.sub(r'(?<=href=")site:|(?<=src=")site:|(?<=href=\\")site:', "../" * path.count("/") if page.suffix == ".html" else "", text)
        text = DERIVED.sub(r"\1#[derive(Drop)]\2", RUST.sub(r"\1Rattle", IO_ERROR.sub("io::Error", DYN.sub("", text))))
        source = re.match(r"src/(\w+)/(.*\.(rt|antt))\.html", path)
        if source:
            file = root / "crates" / source[1] / ("src" if source[3] == "rt" else "") / source[2]
            shown = COMMENT.sub(r'<span class="comment">\g<0></span>', html.escape(file.read_text(encoding="utf-8").rstrip("\n"), quote=False))
            lines = "\n".join(f"<a href=#{at} id={at} data-nosnippet>{at}</a>{line}" for at, line in enumerate(shown.split("\n"), 1))
            text = CODE.sub(lambda _, lines=lines: f"<code>{lines}</code>", text)
        page.write_text(text, encoding="utf-8")
