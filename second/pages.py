"""Pages in Markdown with parts that are generated: a table, and putting a part in its place."""

import re


class NotMade(Exception):
    """A part of a page that could not be made, or put in its place."""


def table_of(head, rows):
    """A table in Markdown."""
    return "\n".join(f"| {' | '.join(row)} |" for row in (head, ["---"] * len(head), *rows))


def marked(name):
    """The pattern of a generated part in a page, with its markers."""
    return re.compile(rf"(<!-- generated: {name} -->\n)(?:.*?\n)?(<!-- end of {name} -->)", re.DOTALL)


def written(page, generated):
    """The page with the generated parts in their places."""
    for name, text in generated.items():
        page, count = marked(name).subn(lambda found: f"{found.group(1)}{text}\n{found.group(2)}", page)
        if count != 1:
            raise NotMade(f"the page has {count} places for {name}")
    return page
