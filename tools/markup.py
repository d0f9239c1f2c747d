"""HTML that is escaped by its making: whatever isn't made here is text."""
import html


# Elements with nothing inside.
VOID = {"br", "meta"}


class Html(str):
    """Text that is HTML already."""


def escaped(inside):
    return inside if isinstance(inside, Html) else Html(html.escape(str(inside)))


def join(*inside):
    return Html("".join(map(escaped, inside)))


def element(tag, *inside, **attributes):
    """An element. `class_` is the attribute class, and `aria_hidden` aria-hidden; one that is True has its name alone."""
    words = [tag]
    for name, value in attributes.items():
        name = name.rstrip("_").replace("_", "-")
        words += [] if value in (None, False) else [name] if value is True else [f'{name}="{html.escape(str(value))}"']
    return Html(f"<{' '.join(words)}>" + ("" if tag in VOID else f"{join(*inside)}</{tag}>"))


def code(*inside, **attributes):
    return element("code", *inside, **attributes)


def table(heads, rows, **attributes):
    """A table of rows that are lists of cells, in a box that scrolls where it is too wide."""
    head = element("thead", element("tr", *(element("th", head, scope="col") for head in heads)))
    body = element("tbody", *(element("tr", *(element("td", cell) for cell in row)) for row in rows))
    return element("div", element("table", head, body, **attributes), class_="wide")


def folded(summary, *inside, is_open=False):
    return element("details", element("summary", summary), *inside, open=is_open)


def page(title, style, *inside):
    head = join(element("meta", charset="utf-8"), element("meta", name="viewport", content="width=device-width, initial-scale=1"),
                element("title", title), element("style", Html(style)))
    return f"<!DOCTYPE html>\n{element('html', element('head', head), element('body', element('main', *inside)), lang='en')}\n"
