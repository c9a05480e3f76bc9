"""docs/STATEMENTS.md: what each theorem that docs/PROMISES.md names says, page by page, with the parameters of the
sections that it stands in; the definitions that the statements use and no promise rests on; and where every name comes
from."""
import functools
import textwrap

import believed
import pages

PAGE = 'docs/STATEMENTS.md'
HEAD = '''# Statements

What each theorem that [PROMISES.md](PROMISES.md) names says, word for word, after the parameters of the sections that
it stands in; with them the definitions that these statements use and that no promise rests on (those that promises
rest on are listed in PROMISES.md), and under each page where its names come from. `tools/promises --write` writes this
page, and the gate fails where it and the proofs differ: a statement cannot become another one without being read here.
'''


@functools.cache
def wrapped(text, first=''):
    return textwrap.fill(text, 116, initial_indent=first, subsequent_indent=first + '    ', break_long_words=False, break_on_hyphens=False)


def shown(item):
    """A theorem by what it says; a definition whole, line by line."""
    sections = ' '.join(section.text for section in item.sections)
    if not item.open:
        return wrapped(f'{item.name} {sections} : {item.statement}' if sections else f'{item.name} : {item.statement}')
    rows = [wrapped(row.strip(), row[:len(row) - len(row.lstrip())]) for row in item.rows if not row.startswith('unfolding ')]
    return '\n'.join([*([wrapped(f'-- with {sections}')] if sections else []), *rows])


def held(every, named, promised):
    """The items to show, page by page, as sets of names: those named, and what they use that is not `promised`."""
    found, todo = {}, list(named)
    while todo:
        page, name = todo.pop()
        item = every[page].items.get(every[page].parents.get(name, name)) if page in every else None
        if not item or '/src/' in page or (page, item.name) in promised or item.name in found.setdefault(page, set()):
            continue
        found[page].add(item.name)
        todo += {every[page].resolve(word) for word in pages.names(every[page], item, every)} - {None}
    return found


def sources(page, items, every):
    """Where the names of some items of a page come from, in words."""
    found = {}
    for word in {word for item in items for word in pages.names(page, item, every)}:
        place = page.resolve(word)
        if place and place[0] != page.name:
            found.setdefault(place[0], []).append(f'`{word}`')
    text = '; '.join(f'{", ".join(sorted(words))} of {source}' for source, words in sorted(found.items()))
    return wrapped(f'Names: {text}.').replace('\n    ', '\n')


def entries(tree, every, named):
    """For the theorems named, pairs of page and name: each page, what is shown of it by name, and its sources."""
    found, order = held(every, named, believed.believed(tree)[0]), list(pages.crates(tree))
    for name in sorted(filter(found.get, found), key=lambda name: (order.index(name.split('/')[0]), name)):
        items = [item for item in every[name].items.values() if item.name in found[name]]
        entry = {item.name: shown(item) for item in items}
        yield name, entry, sources(every[name], items, every)


def written(found):
    """The whole page, of its entries."""
    return '\n'.join([HEAD, *(f'## {name}\n\n```\n' + '\n\n'.join(items.values()) + f'\n```\n\n{names}\n' for name, items, names in found)])
