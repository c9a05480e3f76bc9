"""What must be believed: the definitions that the promises of the public calls rest on, in the order of reading.

Counted is each definition of specs/ (a name with its type and clauses, a record, a data) and each enum or struct of the
code that a promise of "Public calls" names, or the type of such a call, or something counted already. Lines are those
of the definition and of the sections around it; blank lines, comments and `use` do not count. What comes from the kit
is not counted: its names are given apart."""
import re
import textwrap

import pages

PAGE, HEADING = 'docs/PROMISES.md', '## What must be believed, in order'


def table_calls(text):
    """The calls of the table "Public calls"."""
    table = text.split('## Public calls\n')[1].split('\n## ')[0]
    return re.findall(r'^\| `((?:\w+::)?\w+)', table, re.M)


def places(page, found):
    """Where some words of a page come from."""
    return {page.resolve(word) for word in found} - {None}


def at_home(place, every):
    """Where a name stands: one that was brought in through its data, from the page of the data."""
    page, _, data = place[0].rpartition('/')
    return (page, data) if place[0] not in every and page in every else place


def item_of(place, every):
    """The item that a name belongs to, or None: a variant to its enum, a constructor to its data."""
    page = every.get(place[0])
    name = place[1].split('.')[0]
    return page and page.items.get(page.parents.get(name, name))


def believed(tree, but=()):
    """What is counted, as pairs of page and name, and the names of the kit; of all calls but some."""
    every = pages.pages(tree)
    calls = set(table_calls(tree[PAGE])) - set(but)
    todo, counted, kit = set(), set(), set()
    for page in every.values():
        if page.path.endswith('.rt'):
            for function in pages.functions(page):
                if function.public and function.path in calls:
                    for _, text in function.ensures:
                        said = pages.words(text, page)
                        todo |= places(page, set(said) - {'result', *function.parameters, *pages.bound(said)})
                    types = ' '.join([*function.parameters.values(), function.result or ''])
                    todo |= places(page, re.findall(r'[A-Za-z]\w*', types))
    while todo:
        place = pages.home(at_home(todo.pop(), every), every)
        item = item_of(place, every)
        if not item:
            kit |= set() if place[0] in every else {place}
        elif (place[0], item.name) not in counted:
            counted.add((place[0], item.name))
            page = every[place[0]]
            todo |= places(page, pages.names(page, item, every))
    return counted, kit


def reading(tree, but=()):
    """The pages in the order of reading, each with the names counted on it and how many lines they take."""
    every, (counted, kit) = pages.pages(tree), believed(tree, but)
    order = []
    for crate in pages.crates(tree):
        code = tree.get(f'crates/{crate}/src/lib.rt', '')
        order += [f'{crate}/src/{name}' for name in ['lib', *re.findall(r'^pub mod (\w+)', code, re.M)]]
        order += [f'{crate}/specs/{name}' for name in re.findall(r'^pub mod (\w+)', tree.get(f'crates/{crate}/specs/Lib.antt', ''), re.M)]
    rows = []
    for name in order + sorted({page for page, _ in counted} - set(order)):
        items = [item for item in every[name].items.values() if (name, item.name) in counted] if name in every else []
        lines = {line for item in items for line in item.lines}
        lines |= {line for item in items for section in item.sections for line in section.lines}
        if items:
            rows.append((name, [item.name for item in items], len(lines)))
    return rows, kit


def lines(rows, code):
    """How many lines the definitions of some rows take, or the enums and structs of the code."""
    return sum(size for page, _, size in rows if ('/src/' in page) == code)


def in_words(tree):
    """How many lines in all, and without the text of the bench program."""
    rows, fewer = reading(tree)[0], reading(tree, ['answer'])[0]
    return (f'{lines(rows, False)} lines of definitions and {lines(rows, True)} of enums and structs of the code; '
            f'without the bench program\'s text (`answer`) {lines(fewer, False)} and {lines(fewer, True)}.')


def section(tree):
    """The section of docs/PROMISES.md, from its heading on."""
    rows, kit = reading(tree)
    from_kit = {}
    for page, name in sorted(kit):
        from_kit.setdefault(page, []).append(f'`{name}`')
    return '\n'.join([
        HEADING, '',
        'The definitions that the promises of the first table rest on, each crate after those that it stands on, as',
        '`tools/figures --believed` finds them: what a promise names, what that names, and so on. Lines are neither blank nor',
        'comment nor `use`; an enum or a struct of the code counts like a definition.', '',
        '| Page | Definitions | Lines |', '|---|---|---|',
        *(f'| {page} | {", ".join(f"`{name}`" for name in names)} | {size} |' for page, names, size in rows),
        f'| all | {sum(len(names) for _, names, _ in rows)} definitions | {sum(size for *_, size in rows)} |', '',
        textwrap.fill(f'These are {in_words(tree)}', 120), '',
        textwrap.fill('From the kit come ' + '; '.join(f'{", ".join(names)} ({page})' for page, names in from_kit.items()) + '.',
                      120, break_long_words=False, break_on_hyphens=False), ''])


def on_page(text):
    """The section as the page has it, or nothing."""
    start = text.find(HEADING + '\n')
    if start < 0:
        return ''
    end = text.find('\n## ', start)
    return text[start:end if end >= 0 else len(text)]


def put(text, new):
    """The page with the section written anew: where it stands, or before the last one."""
    old = on_page(text)
    if old:
        return text.replace(old, new)
    last = text.rfind('\n## ')
    return text[:last + 1] + new + text[last:]
