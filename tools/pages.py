"""What stands in the crates, read from a tree of texts (path: text): pages of definitions and theorems (specs/*.antt,
proofs/*.antt) and of code (src/**/*.rt), each with what stands on it and with where the names that it uses come from.
A page is named by its crate and file, pack/specs/World; what stands on it by the page and its name there."""
import functools
import pathlib
import re

KEPT = ('crates.txt', 'crates/*/src/**/*.rt', 'crates/*/specs/*.antt', 'crates/*/proofs/*.antt', 'crates/*/must-fail/*.edit',
        'docs/*.md', 'tests/**/*.rs')


def tree(patterns=KEPT):
    """The files of the project that the tools read, each with its text."""
    found = {}
    for pattern in patterns:
        for path in sorted(pathlib.Path('.').glob(pattern)):
            found[str(path)] = path.read_text(encoding='utf-8')
    return found


# What the kit's two pages of common names pass on, by the pages that it comes from: a name is one name whether a file has
# it from there or from here.
COMMON = ('Rattle.std.specs.Prelude', 'Rattle.std.proofs.Common')
PASSED_ON = {name: page for page, names in {
    'mathlib.Core.Path': '◌≡◌ refl',
    'mathlib.Core.Bool': 'Bool true false cond not ◌&&◌ ◌||◌',
    'mathlib.Core.List': 'List [] ◌∷◌ ◌++◌ map reverse',
    'mathlib.Core.Logic': '◌≢◌ ◌⊎◌ ◌↔◌',
    'Prim.Native.Nat': 'ℕ zero suc pred ◌+◌ ◌-◌ ◌*◌ ◌/◌ ◌%◌ ◌^◌ ◌<◌ ◌≤◌ min max',
    'lib.Dec': 'T eqb ltb leb',
    'lib.ListN': 'length get_or take drop set replicate',
    'lib.Bits': 'bit_and bit_or bit_xor',
}.items() for name in names.split()}
KIT_PAGES = {'Rattle.std.specs.Int.Bits': 'lib.Bits'}
# What every clause has without a `use`, and where it is when it is used: the prelude's two enums and their variants.
PRELUDE = 'Rattle.std.specs.Prelude'
ALWAYS = {name: (PRELUDE, name) for name in ('Option', 'Some', 'None', 'Result', 'Ok', 'Err')}


def crates(tree):
    """The crates, lowest first, each with those that it stands on; a static library has that word behind its name."""
    rows = re.findall(r'^[ \t]*(\w+)[^:#\n]*:?([^#\n]*)', tree['crates.txt'], re.M)
    return {name: others.replace(',', ' ').split() for name, others in rows}


def static_libraries(tree):
    """The crates that C links."""
    return re.findall(r'^[ \t]*(\w+) +staticlib\b', tree['crates.txt'], re.M)


def words(text, page=None):
    """The words and brackets of a text; the dot that ends the names after a λ is a word. On a page, so is each field that
    is taken of something (x.f); a name with its data's or its alias before it (Outcome.follows) is one word."""
    found = []
    for word in re.findall(r'\[\]|[(){}\[\],;]|[^\s(){}\[\],;]+', text):
        ends = len(word) > 1 and word.endswith('.') and not word.endswith('..')
        word = word[:-1] if ends else word
        head, *fields = word.split('.')
        apart = page and head and all(fields) and not page.is_named(head)
        found += [head, *(f'.{field}' for field in fields)] if apart else [word]
        found += ['.'] if ends else []
    return found


def spelled_out(path):
    """The rows of words that the path of a `use` of the code stands for: a::{b, c::d} for a b and a c d."""
    head, brace, rest = ' '.join(path.split()).partition('{')
    folders = head.split('::')
    if not brace:
        return [[word.strip() for word in folders]]
    found, depth, start = [], 0, 0
    inside = rest.rstrip()[:-1] + ','
    for i, sign in enumerate(inside):
        depth += (sign == '{') - (sign == '}')
        if sign == ',' and depth == 0:
            part, start = inside[start:i].strip(), i + 1
            found += [[*folders[:-1], *row] for row in spelled_out(part)] if part else []
    return found


def depths(text):
    """How deep in brackets each sign of a text of the code stands; a < that opens one stands right behind a word."""
    depth, found = 0, []
    for i, sign in enumerate(text):
        closes = sign in ')]}' or (sign == '>' and text[i - 1] not in '-= ')
        depth -= closes
        found.append(depth)
        depth += sign in '([{' or (sign == '<' and (i == 0 or text[i - 1] != ' '))
    return found


def apart(text, at=','):
    """What stands between the outermost commas of a text of the code."""
    parts, start = [], 0
    for i, depth in enumerate(depths(text)):
        if depth == 0 and text[i] == at:
            parts.append(text[start:i].strip())
            start = i + 1
    return [part for part in [*parts, text[start:].strip()] if part]


def bracketed(text):
    """A text that begins with a bracket: what stands in it, and what stands behind it."""
    end = depths(text).index(0, 1)
    return text[1:end].strip(), text[end + 1:].strip()


CLOSED = {'(': ':', '{': ':', 'λ': '.', 'let': ':='}


def bound(tokens):
    """The names that a row of words binds itself: (x y : ..), {x : ..}, λ x y., let x."""
    names = []
    for i, word in enumerate(tokens):
        if word in CLOSED:
            end = i + 1
            while end < len(tokens) and tokens[end][0].isalpha() and tokens[end] != 'λ':
                end += 1
            if end < len(tokens) and tokens[end] in CLOSED[word]:
                names += tokens[i + 1:end]
    return names


class Item:
    """Something that stands on a page: its name, its parts (type and clauses, or the lines of a record or data), the
    lines that it takes, the sections around it, and of a name with a type what it says, and where in the text. It is
    `open` where it is a definition, of which the body counts too."""

    def __init__(self, name, kind, open_, sections):
        self.name, self.kind, self.open, self.sections = name, kind, open_, sections
        self.parts, self.rows, self.lines, self.statement, self.span = [], [], [], '', None
        self.fields, self.facts = None, []

    def text(self):
        """What counts of it, in one row: a definition whole, else what it says, after the parameters of its sections."""
        return ' '.join([*(section.text for section in self.sections), *(self.parts if self.open else [self.statement])])


    def read_fields(self, sort, text):
        """The fields of a struct of the code with their types, and the names of its ghost fields."""
        inside = text.strip().removeprefix(';').rstrip(';').strip()[1:-1]
        pieces = [' '.join(piece.split()) for piece in apart(inside)]
        self.facts += [name for piece in pieces for name in re.findall(r'^(?:pub )?ghost (\w+)', piece)]
        if sort == 'struct':
            plain = [re.sub(r'^(#\[[^\]]*\] ?)*(pub(\([^)]*\))? )?', '', piece) for piece in pieces if not re.match(r'(pub )?ghost\b', piece)]
            fields = [re.match(r'(\w+): (.*)$', piece) for piece in plain]
            self.fields = {field[1]: field[2] for field in fields} if all(fields) else {str(k): piece for k, piece in enumerate(plain)}


class Section:
    """A `module _ (..) where`: its parameters and its lines."""

    def __init__(self, indent, text, lines):
        self.indent, self.text, self.lines = indent, text, lines


class Page:
    """A file: what stands on it (`items`, and in `doubled` the names that stand there twice), the data of its constructors
    (`parents`), and the names and pages that it uses."""

    def __init__(self, path, text):
        self.name = re.sub(r'^crates/|\.\w+$', '', path)
        self.path, self.text, self.crate = path, text, self.name.split('/')[0]
        self.items, self.parents, self.names, self.code_names, self.aliases = {}, {}, {}, {}, {}
        self.doubled, self.unclear = set(), set()
        for used in re.finditer(r'^ *(?:pub )?(?:ghost )?use ([^\s;{:]+?)(?:\.\{([^}]*)\})?(?: as (\w+))?;?$', text, re.M):
            self.use(*used.groups())
        for used in re.finditer(r'^(?:pub )?use (\w+::[^;]*);', text, re.M) if path.endswith('.rt') else ():
            for *folders, name in spelled_out(used[1]):
                self.use_code(folders, name)
        (self.read_code if path.endswith('.rt') else self.read)()

    def named(self, name, place):
        """A name of clauses, definitions or theorems from somewhere else; one that comes from two places, in two blocks of
        the code, is unclear."""
        if self.names.setdefault(name, place) != place:
            self.unclear.add(name)

    def use_code(self, folders, name):
        """A `use` of the code, of one thing."""
        crate, *files = folders
        whole, _, short = name.partition(' as ')
        self.code_names[short or whole] = (f'{self.crate if crate == "crate" else crate}/src/{"/".join(files) or "lib"}', whole)

    def use(self, path, names, alias):
        """A `use` of names of a page, or of a page as an alias."""
        page, prefix = KIT_PAGES.get(path, path), ''
        ours = re.fullmatch(r'Rattle\.(?!std\b)(\w+)\.(.*)', path)
        if ours:
            crate, rest = ours[1], ours[2].split('.')
            if rest[:2] == ['specs', 'declared']:
                prefix = rest[-2] + '.' if rest[-1] == 'TheVariants' else ''
                files = rest[2:-2] if prefix else rest[2:-1]
                rest = ['src', *(files or ['lib'])]
            page = '/'.join([crate, *rest])
            if page in ('core/src/option', 'core/src/result'):
                page, prefix = PRELUDE, ''
        if alias:
            self.aliases[alias] = (page, prefix)
        for name in (names or '').split(','):
            whole, _, short = name.strip().partition(' as ')
            if whole:
                home = PASSED_ON.get(whole, page) if page in COMMON else page
                self.named((short or whole).strip('◌'), (home, prefix + whole))

    def read(self):
        """The sections and items of a page of definitions or theorems."""
        lines, sections, item, i, offsets = [], [], None, 0, [0]
        for line in self.text.split('\n'):
            offsets.append(offsets[-1] + len(line) + 1)
            lines.append(re.sub(r'(^|\s)--.*', '', line).rstrip())
        while i < len(lines):
            indent = len(lines[i]) - len(lines[i].lstrip())
            if not lines[i] or re.match(r'(pub )?(use|mod) ', lines[i]):
                i += 1
                continue
            while sections and indent <= sections[-1].indent:
                sections.pop()
            taken, j = [i], i + 1
            while j < len(lines) and (not lines[j] or len(lines[j]) - len(lines[j].lstrip()) > indent):
                if re.match(r' *module ', lines[i]) and lines[taken[-1]].endswith(' where'):
                    break
                taken += [j] if lines[j] else []
                j += 1
            text = ' '.join(' '.join(lines[k] for k in taken).split())
            if text.startswith('module '):
                sections.append(Section(indent, text.split(' ', 2)[2].removesuffix('where').strip(), taken))
                i = taken[-1] + 1
                continue
            head = re.match(r'((?:abbrev |unfoldable |pub )*)(record |data )?(\S+) (.*)$', text)
            if head and (head[2] or head[4].startswith(': ') or head[4] == ':') and not re.match(r'unfolding\b', text):
                item = Item(head[3], (head[2] or '').strip(), bool(head[2] or head[1].replace('pub ', '')) or '/specs/' in self.name, list(sections))
                self.doubled |= {item.name} & set(self.items)
                self.items.setdefault(item.name, item)
                if not head[2]:
                    item.statement = head[4][2:]
                    start = offsets[i] + lines[i].index(' :') + 2
                    item.span = (start, offsets[taken[-1]] + len(lines[taken[-1]]))
                else:
                    for k in taken[1:]:
                        field = re.match(r' *(?:pub )?([^\s:]+) :', lines[k])
                        if field and head[2] == 'data ':
                            self.parents[field[1]] = item.name
            if item:
                item.parts += self.pieces([lines[k] for k in taken], bool(head and head[2]))
                item.rows += [('' if k == taken[0] else '    ') + ' '.join(lines[k].split()) for k in taken]
                item.lines += taken
            i = j

    @staticmethod
    def pieces(lines, apart):
        """The text of some lines in one piece, or, of a record or data, a piece for each line."""
        return [' '.join(line.split()) for line in (lines if apart else [' '.join(lines)])]

    def read_code(self):
        """The enums and structs of a file of code, each with its fields, and with its facts: its ghost fields, or the
        invariant of its model."""
        lines = self.text.splitlines()
        for i, line in enumerate(lines):
            head = re.match(r'( *)(?:pub(?:\([^)]*\))? )?(enum|struct) (\w+)', line)
            if head:
                end = i if re.search(r'[;}]$', line) else lines.index(head[1] + '}', i)
                item = Item(head[3], 'type', True, [])
                item.lines = [k for k in range(i, end + 1) if not lines[k].strip().startswith('//')]
                text = '\n'.join(lines[k] for k in item.lines)
                text = re.sub(r'<[^<>]*>', '', line[head.end():], count=1) + text[len(line):]
                item.read_fields(head[2], text)
                item.parts = [re.sub(r'\w+: ', '', re.sub(r'[<>&]', ' ', ' '.join(lines[k].split()))) for k in item.lines[1:] or [i]]
                self.items[item.name] = item
        for i, line in enumerate(lines):
            model = re.match(r'( *)impl.*\bModel for (\w+)', line)
            if model and model[2] in self.items and re.search(r'^ *ghost invariant\b', '\n'.join(lines[i:lines.index(model[1] + '}', i)]), re.M):
                self.items[model[2]].facts.append('invariant')

    def is_named(self, word):
        """Whether a word is a name or an alias of this page, and no variable."""
        return word in self.aliases or self.resolve(word) is not None

    def resolve(self, word):
        """Where a name of this page comes from, and its name there; None for what is no name or the language's own."""
        if word in self.items or word in self.parents or f'◌{word}◌' in self.items:
            return (self.name, word)
        if word in self.names or word in self.code_names:
            return self.names.get(word) or self.code_names[word]
        if word in ALWAYS and self.path.endswith('.rt'):
            return ALWAYS[word]
        head, dot, tail = word.partition('.')
        if head and dot and head in self.aliases:
            page, prefix = self.aliases[head]
            return (page, prefix + tail)
        if head and dot and tail and self.resolve(head):
            page, name = self.resolve(head)
            return (page, f'{name}.{tail}')
        return None


class Block:
    """An `impl` or a trait of the code: its lines, the type or the trait of which it is, the trait that it is an `impl`
    of, its type parameters, and the ghost members that it declares or gives."""

    def __init__(self, head, lines, start, end):
        self.start, self.end, self.indent = start, end, len(head[1])
        body = next(k for k in range(start, end + 1) if lines[k].endswith('{') or lines[k].endswith('{}'))
        text = ' '.join(' '.join(lines[start:body + 1]).split()).rstrip('{} ').split(' where ')[0]
        self.is_trait, rest = head[2] == 'trait', text.split(head[2], 1)[1].strip()
        self.public, self.trait = head[0].strip().startswith('pub '), None
        self.generics = ['Self'] if self.is_trait else []
        if not self.is_trait and rest.startswith('<'):
            inside, rest = bracketed(rest)
            self.generics += parameter_names(inside)
        if self.is_trait:
            self.type, _, rest = rest.partition(':')
            self.generics += parameter_names(bracketed(self.type[self.type.index('<'):])[0]) if '<' in self.type else []
        else:
            trait, is_of, kind = rest.rpartition(' for ')
            self.trait, self.type = (trait.strip() if is_of else None), kind.strip()
        self.owner = base(self.type)
        inside = '\n'.join(lines[body + 1:end])
        self.ghosts = [name for name in re.findall(rf'^ {{{self.indent + 4}}}(?:pub )?ghost (\w+)', inside, re.M) if name != 'use']


def parameter_names(text):
    """The type and const parameters between < and >, without lifetimes."""
    names = [re.match(r"(?:const )?('?\w+)", part)[1] for part in apart(text)]
    return [name for name in names if not name.startswith("'")]


def base(kind):
    """The last name of a type's path: Question of &'a pack::Question<'a>."""
    found = re.match(r"(?:&(?:'\w+ )?(?:mut )?)*(?:\w+::)*(\w+)", kind)
    return found[1] if found else kind


class Function:
    """A function of the code: its page, whether it is public and for C, its block, its parameters with their types, the
    type of its result, its type parameters and ghost values, and its promises: the name of each and its words, in which
    `result` is the result. Its path is its name, behind that of its type where it is a method; of the `impl` of a trait it
    has the trait's clauses too, and is not public itself."""

    def __init__(self, page, head, block, signature):
        self.page, self.crate, self.block, self.for_c, self.name = page, page.crate, block, bool(head[3]), head[4]
        of_trait = block and block.trait
        self.public = bool(head[2] and head[2].strip() == 'pub') or bool(block and block.is_trait and block.public)
        self.path = self.name if not block else f'<{block.type} as {of_trait}>::{self.name}' if of_trait else f'{block.owner}::{self.name}'
        self.generics, self.parameters, self.result, self.unread = list(block.generics) if block else [], {}, None, False
        self.requires, self.ensures, self.ghosts, self.body = False, [], [], ''
        try:
            self.read(' '.join(signature.split()).split(f'fn {self.name}', 1)[1].strip())
        except (ValueError, TypeError, IndexError):
            self.unread = True

    def read(self, text):
        """The signature behind the name."""
        if text.startswith('<'):
            inside, text = bracketed(text)
            self.generics += parameter_names(inside)
        inside, rest = bracketed(text)
        rest = re.split(r'(?:^| )where ', rest)[0].strip()
        self.result = rest.removeprefix('->').strip() or None
        own = self.block.type if self.block and not self.block.is_trait else 'Self'
        for part in apart(inside):
            taken = re.fullmatch(r"(?:(&(?:'\w+ )?(?:mut )?)|mut )?self", part)
            name, _, kind = ('self', '', (taken[1] or '') + 'Self') if taken else re.sub(r'^mut ', '', part).partition(': ')
            self.parameters[name] = re.sub(r'\bSelf\b', own, kind)
        self.result = self.result and re.sub(r'\bSelf\b', own, self.result)


@functools.cache
def blocks(page):
    """The impls and traits of a file of code."""
    found, lines = [], page.text.splitlines()
    for i, line in enumerate(lines):
        head = re.match(r'( *)(?:pub(?:\([^)]*\))? )?(?:unsafe )?(impl|trait)\b', line)
        if head:
            end = i if line.endswith('{}') else lines.index(head[1] + '}', i)
            found.append(Block(head, lines, i, end))
    return found


@functools.cache
def functions(page):
    """The functions and methods of a file of code."""
    found, lines = [], page.text.splitlines()
    for i, line in enumerate(lines):
        head = re.match(r'( *)(pub(?:\([^)]*\))? )?(?:const |unsafe )*(extern "C" )?fn (\w+)', line)
        if not head:
            continue
        indent, body, clauses = head[1], i, []
        while lines[body] != indent + '{' and not (not clauses and re.search(r' \{\}?$', lines[body])) and not lines[body].endswith(';'):
            clauses += [body] if re.match(rf'{indent}    (ghost|requires|ensures)\b', lines[body]) else []
            body += 1
        if lines[body].endswith(';'):
            clauses += [body] if re.match(rf'{indent}    (ghost|requires|ensures)\b', lines[body]) else []
            body += 1
        clauses.append(body)
        around = [block for block in blocks(page) if block.start < i < block.end]
        function = Function(page, head, around[-1] if around else None, re.sub(r'( \{\}?|;)$', '', '\n'.join(lines[i:max(clauses[0], i + 1)])))
        for start, end in zip(clauses, clauses[1:]):
            text = ' '.join(' '.join(lines[start:end]).split()).removesuffix(';')
            promise = re.fullmatch(r'ensures ?(\w*) \{ (.*) \}', text)
            if promise:
                function.ensures.append(promise.groups())
            elif text.startswith('ensures'):
                function.unread = True
            function.requires |= text.startswith('requires')
            function.ghosts += re.findall(r'^ghost (\w+):', text)
        if not lines[body - 1].endswith(';') and not lines[body].endswith('{}'):
            function.body = '\n'.join(re.sub(r'(^|\s)//.*', '', row) for row in lines[body:lines.index(indent + '}', body)])
        found.append(function)
    return found


def home(place, every):
    """Where a name stands that a page of code only hands on (`pub use`)."""
    seen = set()
    while place and place[0] in every and place not in seen:
        seen.add(place)
        page, name = every[place[0]], place[1].split('.')[0]
        if name in page.items or name not in page.code_names:
            break
        place = (page.code_names[name][0], page.code_names[name][1] + place[1][len(name):])
    return place


def type_of(kind, page, every):
    """The struct or enum of the code that a type is, with its page, or None."""
    path = re.match(r"((?:\w+::)*)(\w+)", kind)
    if not path:
        return None
    folders = path[1].split('::')[:-1]
    if folders:
        first = page.code_names.get(folders[0])
        crate = page.crate if folders[0] == 'crate' else folders[0]
        where = f'{first[0].removesuffix("/lib")}/{first[1]}' if first else f'{crate}/src'
        place = ('/'.join([where, *folders[1:]]) if first or folders[1:] else f'{where}/lib', path[2])
    else:
        place = (page.name, path[2]) if path[2] in page.items else page.code_names.get(path[2])
    place = home(place, every)
    found = place and place[0] in every and every[place[0]]
    return (found, found.items[place[1]]) if found and found.path.endswith('.rt') and place[1] in found.items else None


def struct_of(kind, page, every):
    """The struct of the code that a type is, with its page, or None."""
    found = type_of(kind, page, every)
    return found if found and found[1].fields is not None else None


def types_in(kind, page, every):
    """All structs and enums of the code that a value of a type has in it, as pairs of page and item."""
    found, todo = {}, [(page, kind)]
    while todo:
        page, kind = todo.pop()
        for path in re.findall(r'(?:\w+::)*[A-Z]\w*', kind):
            one = type_of(path, page, every)
            if one and (one[0].name, one[1].name) not in found:
                found[one[0].name, one[1].name] = one
                todo += [(one[0], part) for part in one[1].parts]
    return list(found.values())


def builds(place, every):
    """Whether a name is a variant or a constructor, or the kit's, of which nothing is known."""
    page = place and every.get(place[0])
    return bool(place) and (page is None or '.' in place[1] or place[1] in page.parents)


def names(page, item, every):
    """The words of an item but for those that it binds itself, on the left of a clause too."""
    tokens = words(item.text(), page)
    own = set(bound(tokens))
    for part in item.parts[1:] if item.open and not item.kind else []:
        left = words(re.split(r' =(?: |$)', part)[0], page)[1:]
        own |= {word for word in left if not builds(page.resolve(word), every)}
    return set(tokens) - own


@functools.cache
def page_of(path, text):
    return Page(path, text)


def pages(tree):
    """Every page of the crates, by its name."""
    read = [page_of(path, text) for path, text in tree.items() if path.endswith(('.rt', '.antt'))]
    return {page.name: page for page in read}
