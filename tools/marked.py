"""A part of a page that a tool writes: what stands between `<!-- NAME: TOOL writes this -->` and `<!-- end of NAME -->`."""
import pathlib
import re


def replaced(page, name, text):
    """The page with another text in the part of that name."""
    part = re.compile(rf"(<!-- {re.escape(name)}: [^\n]*-->\n).*?(<!-- end of {re.escape(name)} -->)", re.S)
    if len(part.findall(page)) != 1:
        raise SystemExit(f"the page has not one part `{name}`")
    return part.sub(lambda found: f"{found.group(1)}\n{text.strip()}\n\n{found.group(2)}", page)


def write(path, name, text):
    path = pathlib.Path(path)
    path.write_text(replaced(path.read_text(), name, text))
