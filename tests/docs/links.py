"""The links of pages in HTML: which of them lead to no file, or to no place in it."""
import functools
import html
import os
import re
from urllib.parse import unquote

TAG = re.compile(r"<[a-zA-Z][^<>]*>")
#: The attributes of a tag that are links, and those that are places for links.
LINK, PLACE = (re.compile(rf"""\s(?:{names})=(?:"([^"]*)"|'([^']*)'|([^\s"'>]+))""") for names in ("href|src", "id|name"))
#: What another server or a script answers.
ELSEWHERE = re.compile(r"[a-z][a-z+.-]*:|//", re.I)
#: rustdoc names some lines of a source, 12-20: a place is the first of them.
LINES = re.compile(r"(\d+)-\d+")


def values(form, page):
    """What these attributes have in a page."""
    with open(page, encoding="utf-8") as file:
        text = re.sub(r"(?s)<!--.*?-->|(<script\b[^>]*>).*?</script>", r"\1", file.read())
    return {html.unescape("".join(found)) for tag in TAG.findall(text) for found in form.findall(tag)}


@functools.lru_cache(maxsize=None)
def places(page):
    """The places in a page."""
    found = values(PLACE, page)
    return found | {unquote(it) for it in found}


def is_dead(page, link):
    """Whether a link of a page leads nowhere."""
    target, _, place = link.partition("#")
    target, place = unquote(target.partition("?")[0]), LINES.sub(r"\1", unquote(place))
    path = os.path.normpath(os.path.join(os.path.dirname(page), target)) if target else page
    if os.path.isdir(path):
        path = os.path.join(path, "index.html")
    if not os.path.exists(path):
        return True
    return bool(place) and path.endswith(".html") and place not in places(path)


def dead_links(folder):
    """Each dead link in the pages of a folder, as 'page: link', and how many links there are."""
    places.cache_clear()
    found, count = [], 0
    for at, _, names in sorted(os.walk(folder)):
        for page in (os.path.join(at, name) for name in sorted(names) if name.endswith(".html")):
            links = [it for it in sorted(values(LINK, page)) if it and not ELSEWHERE.match(it)]
            count += len(links)
            found += [f"{os.path.relpath(page, folder)}: {it}" for it in links if is_dead(page, it)]
    return found, count
