"""The chapters of the driver: those of crates/driver/stdin, whose output is kept in stdout, and those
of crates/driver/chapters.txt, of which the model alone says what they print.

A line `# NAME` begins a chapter. In chapters.txt lines that begin with `> ` are a set-up, which comes
before each line below them, up to the next set-up or the end of the chapter; a line that begins with
two blanks comes behind the one above it, without the set-up. `>` alone is a set-up of no lines."""

import collections
import pathlib

DRIVER = pathlib.Path(__file__).resolve().parent.parent.parent / "crates" / "driver"
FILES = ("stdin", "chapters.txt")

# A chapter: its name, its lines, and of each where it stands, the heading's place first.
Chapter = collections.namedtuple("Chapter", "name lines places")


def is_call(line):
    """Tells whether a line is a call and no heading."""
    return not line.startswith("#")


def chapters_of(text, file=FILES[0]):
    """Takes apart the text of a file, with its set-ups."""
    chapters, set_up, is_set_up = [], [], False
    for number, line in enumerate(text.splitlines(), 1):
        place = f"crates/driver/{file}:{number}"
        if not is_call(line) or not chapters:
            chapters.append(Chapter("(without a name)" if is_call(line) else line[1:].strip(), [], [place]))
            set_up = []
        if line.startswith(">"):
            set_up = [*(set_up if is_set_up else []), *filter(None, [line[2:]])]
        elif is_call(line):
            made = [line[2:]] if line.startswith("  ") else [*set_up, line]
            chapters[-1].lines.extend(made)
            chapters[-1].places.extend(place for _ in made)
        is_set_up = line.startswith(">")
    return chapters


def kept_chapters(folder=DRIVER):
    """Returns the chapters of both files of a folder."""
    return [it for file in FILES if (folder / file).is_file()
            for it in chapters_of((folder / file).read_text(encoding="utf-8"), file)]


def lines_of(chapters):
    """Returns the lines of some chapters, with their headings."""
    return [line for chapter in chapters for line in (f"# {chapter.name}", *chapter.lines)]


def place_of(chapters, number):
    """Returns in which of some chapters a line of `lines_of` is, and its number there."""
    for place, chapter in enumerate(chapters):
        if number <= len(chapter.lines):
            return place, number - 1
        number -= 1 + len(chapter.lines)
    return len(chapters) - 1, len(chapters[-1].lines) - 1


def told(chapters, difference, refused=()):
    """Returns a text of what differs in one of some chapters. Of each chapter a request was
    refused, which `refused` has: the place of its line and its number there."""
    place, at = place_of(chapters, difference.number)
    chapter = chapters[place]
    line = chapter.lines[at] if at >= 0 else f"# {chapter.name}"
    text = f"chapter {chapter.name}, {chapter.places[at + 1]}: {line}\n"
    if refused:
        of_line, request = refused[place]
        text += f"    with request {request} of {chapter.lines[of_line]} refused\n"
    return f"{text}    {difference.text()}"
