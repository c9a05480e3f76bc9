"""Whether a theorem says that no second result keeps a call's promise.

Its premises must be the call's promise twice, word for word but for variables, once for a result and the buffers
afterwards and once for others; variables answer to each other one to one, the same in both; its conclusion must equate
the two results, and each buffer afterwards with its second, and nothing less. A name is the same only where it comes
from the same page. One premise more is allowed: that a result is below 2 to the bits of its type.

A variable is what a promise names of a parameter: a number, what a reference points to, and of a struct each field by
itself, as the call begins and at the return; so `self.old.links` and `q.now.pack.now` are each one variable, and so is a
field of a struct that is taken by value, or the struct, with its fields taken of it. What a bound or a trait brings,
`T.told`, is a variable too; then the theorem is one of any type: it begins with one."""
import re

from pages import apart as parted
from pages import bound, bracketed, struct_of, words

BITS = {'u8': '8', 'u16': '16', 'u32': '32', 'u64': '64', 'usize': '64'}
EQUALS, BELOW, POWER = ('mathlib.Core.Path', '◌≡◌'), ('Prim.Native.Nat', '◌<◌'), ('Prim.Native.Nat', '◌^◌')
# A variable of a promise is a word `path@when`: the parameter and its fields, with * for what a reference points to, and
# whether that is as the call begins or at the return. What is given by value is so at no time.
RESULT, FIRST, LAST = 'result@after', '@entry', '@after'
# What an `ensures` writes of a reference, or of a parameter that holds some: as the call begins, and at the return.
MOMENTS = {'now': FIRST, 'old': FIRST, 'entry': FIRST, 'new': LAST, 'exit': LAST}


def split(tokens, at):
    """The rows of words between the outermost signs `at`."""
    parts, depth = [[]], 0
    for word in tokens:
        depth += (word in '([{') - (word in ')]}') if len(word) == 1 else 0
        if word == at and depth == 0:
            parts.append([])
        else:
            parts[-1].append(word)
    return parts


def closes(tokens):
    """Where the bracket that the words start with closes."""
    depth = 0
    for i, word in enumerate(tokens):
        depth += (word in ('(', '{')) - (word in (')', '}'))
        if depth == 0:
            return i
    return -1


def bare(tokens):
    """The words without brackets around all of them."""
    while tokens[:1] == ['('] and closes(tokens) == len(tokens) - 1 and len(split(tokens[1:-1], ',')) == 1:
        tokens = tokens[1:-1]
    return tokens


def groups(tokens):
    """The groups (x y : ..) and {x : ..} that words consist of, or None where they are something else."""
    found = []
    while tokens:
        end = closes(tokens) if tokens[0] in ('(', '{') else -1
        inside = split(tokens[1:end], ':') if end > 0 else []
        if len(inside) < 2:
            return None
        found.append((inside[0], tokens[len(inside[0]) + 2:end]))
        tokens = tokens[end + 1:]
    return found


def conjuncts(tokens):
    """The factors of a product; (x : ..) × .. is one of them as it stands."""
    tokens = bare(tokens)
    parts = split(tokens, '×')
    if len(split(tokens, '→')) > 1 or len(parts) == 1 or any(groups(part) for part in parts[:-1]):
        return [tokens]
    return [factor for part in parts for factor in conjuncts(part)]


class Theorem:
    """A theorem's variables, with what they are of, its premises and conclusion; those of its sections are among them. A
    variable that stands for a type (A : Type 0) is among the `types`, and not among the variables."""

    def __init__(self, page, item):
        self.page, self.variables, self.types, self.kinds, self.premises = page, [], set(), {}, []
        *parts, self.conclusion = split(words(item.statement, page), '→')
        for part in [*(words(section.text, page) for section in item.sections), *parts]:
            found = groups(part)
            if not found:
                self.premises += conjuncts(part)
            for names, kind in found or []:
                if set(kind) & set(self.variables):
                    self.premises += [factor for _ in names for factor in conjuncts(kind)]
                elif kind[:1] == ['Type']:
                    self.types |= set(names)
                else:
                    self.variables += names
                    self.kinds.update({name: kind for name in names})


def reference(kind):
    """Of the type of a reference: whether through it is written, and the type of what it points to; else None."""
    found = re.match(r"&(?:'\w+ )?(mut )?(.*)$", kind)
    return found and (bool(found[1]), found[2])


def fields(kind, page, every):
    """The fields of a struct of the code, or the parts of a tuple: pairs of type and page by name, or None."""
    if kind.startswith('('):
        return {str(k): (part, page) for k, part in enumerate(parted(bracketed(kind)[0]))}
    found = struct_of(kind, page, every)
    return found and {name: (part, found[0]) for name, part in found[1].fields.items()}


def place(function, every, name, steps, apart):
    """What a parameter's name and the fields taken of it stand for: a variable, and the fields that are taken of that. A
    field is a variable of its own where it is reached through a reference, or where structs are taken apart; so is one of the
    result."""
    kind, when = (function.result or '', LAST) if name == 'result' else (function.parameters[name], '')
    page, path, taken = function.page, [name], 0
    for step in steps:
        points, inside = reference(kind), fields(kind, page, every)
        lent = points and points[0] and not when and not path[1:]
        if step in ('entry', 'exit') and not points and not when:
            when = MOMENTS[step]
        elif points and (step == 'now' and (when or not points[0]) or step in ('old', 'new') and lent):
            when, kind = when or MOMENTS[step], points[1]
            path.append('*')
        elif inside and step in inside and (apart or when and name != 'result'):
            kind, page = inside[step]
            path.append(step)
        else:
            break
        taken += 1
    return ':'.join(path) + (when or '@'), steps[taken:]


def own_words(function):
    """What a promise may name of a type parameter or of the trait that it stands in."""
    return set(function.block.ghosts) if function.block and function.block.is_trait else set()


def promise(function, every, apart=True):
    """The words of a call's promise, factor by factor, in which each variable is one word, and the result is one word in
    all clauses."""
    found = []
    for _, text in function.ensures:
        def variable(match):
            name, steps = match[1], match[2].split('.')[1:]
            if name in function.generics and steps:
                return '.'.join([f'{name}:{steps[0]}@', *steps[1:]])
            if name not in function.parameters and name != 'result':
                return match[0]
            word, rest = place(function, every, name, steps, apart)
            return '.'.join([word, *rest])
        text = re.sub(r"(?<![\w.'])(\w+)((?:\.\w+)+)(?![\w'-])", variable, text)
        own, tokens = own_words(function), []
        for word in words(text, function.page):
            known = word in function.parameters or word in function.generics or word in function.ghosts
            tokens.append(RESULT if word == 'result' else f'{word}@' if known else f'Self:{word}@' if word in own else word)
        found += conjuncts(tokens)
    return found


def variables(tokens):
    """The words that stand for what a call is given, gives and leaves."""
    return {word for word in tokens if '@' in word}


def readable(word):
    """A variable as the code has it."""
    path, at, when = word.partition('@')
    return path.replace(':*', '').replace(':', '.') + (' afterwards' if at and when == 'after' and path != 'result' else '')


def alike(one, other, every):
    """Whether two functions take the same, give the same and promise the same, word for word; neither asks anything."""
    if one.requires or other.requires or one.parameters != other.parameters or one.result != other.result:
        return False
    ones, others = promise(one, every), promise(other, every)
    return list(one.parameters) == list(other.parameters) and len(ones) == len(others) and all(
        len(factor) == len(second) and all(same(one.page, word, other.page, another) for word, another in zip(factor, second))
        for factor, second in zip(ones, others))


def plain(tokens, others):
    """Words with the names that they bind themselves numbered, or None where such a name stands for something else too."""
    own = bound(tokens)
    if set(own) & set(others):
        return None
    return [f'bound-{own.index(word)}' if word in own else word for word in tokens]


def same(page, one, other_page, other):
    """Whether two words of two pages are one: names that come from one place, or the same sign."""
    places = page.resolve(one), other_page.resolve(other)
    return one == other if places == (None, None) else places[0] == places[1]


def answers(function, theorem, factor, premise, copy, names):
    """The names of variables, with those that make a premise the factor of the promise, for one copy of the result;
    None where it is not that."""
    given = plain(factor, {*variables(factor), *function.parameters})
    said = plain(premise, {*theorem.variables, *theorem.types})
    if not given or not said or len(given) != len(said):
        return None
    names = dict(names)
    for one, other in zip(given, said):
        if '@' in one:
            key = (one, copy if one.endswith(LAST) else 0)
            if other not in theorem.variables or names.setdefault(key, other) != other:
                return None
        elif other in theorem.variables or other in theorem.types or not same(function.page, one, theorem.page, other):
            return None
    return names if len(set(names.values())) == len(names) else None


def fit(function, theorem, factors, left, names):
    """The most premises that can answer to factors of the promise, one each: pairs (factor and copy, premise), names."""
    best = ({}, names)
    for i, (factor, copy) in enumerate(left):
        for k in factors:
            found = answers(function, theorem, factor, theorem.premises[k], copy, names)
            if found is not None:
                pairs, all_names = fit(function, theorem, [j for j in factors if j != k], left[i + 1:], found)
                if len(pairs) + 1 > len(best[0]):
                    best = ({**pairs, k: (factor, copy)}, all_names)
        if len(best[0]) == len(left) - i:
            break
    return best


def bounded(function, theorem, premise, results):
    """Whether a premise says that a result is below 2 to the bits of its type."""
    return (len(premise) == 5 and premise[0] in results and premise[2] == '2' and premise[4] == BITS.get(function.result)
            and theorem.page.resolve(premise[1]) == BELOW and theorem.page.resolve(premise[3]) == POWER)


def faults(function, page, item, every):
    """What keeps a theorem from saying that no second result keeps the promise of a call, however structs are read."""
    readings = [promise(function, every), promise(function, every, False)]
    return min((faults_of(function, page, item, factors, every) for factors in readings[:1 + (readings[0] != readings[1])]), key=len)


def faults_of(function, page, item, factors, every):
    """The same for one reading of the promise."""
    theorem = Theorem(page, item)
    given = {word for factor in factors for word in variables(factor)}
    if len(set(theorem.variables)) < len(theorem.variables):
        return ['names two variables alike']
    left = [(factor, copy) for copy in (1, 2) for factor in factors]
    pairs, names = fit(function, theorem, range(len(theorem.premises)), left, {})
    found = [f'does not have as a premise for {"one result" if copy == 1 else "a second one"}: {" ".join(map(readable, factor))}'
             for factor, copy in left if (factor, copy) not in pairs.values()]
    results = {names.get((RESULT, copy)) for copy in (1, 2)} - {None}
    for k, premise in enumerate(theorem.premises):
        if k not in pairs and not bounded(function, theorem, premise, results):
            found.append(f'has a premise more: {" ".join(premise)}')
    more = [name for name in theorem.variables if name not in names.values()]
    if more or theorem.types and not function.generics:
        found.append(f'has variables more: {" ".join(more or sorted(theorem.types))}')
    for (word, _), name in names.items():
        kind = (function.result or '') if word == RESULT else function.parameters.get(re.split('[:@]', word)[0], '')
        if (reference(kind) or (False, kind))[1] in function.generics and theorem.kinds[name] not in [[one] for one in theorem.types]:
            found.append(f'is not of any type: {name}')
    if not concludes(function, theorem, {word for word in given if word.endswith(LAST)}, names, every):
        found.append(f'does not conclude that the results, and the buffers afterwards, are one: {" ".join(theorem.conclusion)}')
    return found


def concludes(function, theorem, wanted, names, every):
    """Whether a theorem equates each of some variables with its second, and nothing else: whole, or of a result that is a
    struct all fields."""
    equated = {}
    for factor in conjuncts(theorem.conclusion):
        sides = [k for k, word in enumerate(factor) if theorem.page.resolve(word) == EQUALS]
        left, right = (factor[:sides[0]], factor[sides[0] + 1:]) if len(sides) == 1 else ([], [])
        if left[1:] != right[1:] or any(word[0] != '.' for word in left[1:]):
            return False
        equated.setdefault(frozenset((*left[:1], *right[:1])), []).append([word[1:] for word in left[1:]])
    pairs = {frozenset((names.get((word, 1)), names.get((word, 2)))): word for word in wanted}
    if not wanted or len(pairs) < len(wanted) or any(len(pair) < 2 for pair in pairs) or pairs.keys() != equated.keys():
        return False
    for pair in (pair for pair in pairs if equated[pair] != [[]]):
        parts = [place(function, every, 'result', steps, True) for steps in equated[pair]]
        left = left_out(['result'], function.result or '', function.page, every, {part for part, _ in parts})
        if pairs[pair] != RESULT or left or any(rest for _, rest in parts):
            return False
    return True


def left_out(path, kind, page, every, given):
    """Of what may be written in a value of a type, what is not spoken of at the return."""
    if ':'.join(path) + LAST in given:
        return []
    points, inside = reference(kind), fields(kind, page, every)
    if points:
        return left_out([*path, '*'], points[1], page, every, given)
    if inside is None:
        return [path]
    parts = [left_out([*path, name], *part, every, given) for name, part in inside.items()]
    return [path] if parts and all(part == [[*path, name]] for part, name in zip(parts, inside)) else sum(parts, [])


def left_behind(path, kind, page, every, given):
    """Of what may be written through a value that is handed over, what is not spoken of at the return."""
    if ':'.join(path) + LAST in given:
        return []
    points = reference(kind)
    if points:
        return left_out([*path, '*'], points[1], page, every, given) if points[0] else []
    inside = fields(kind, page, every)
    if inside:
        return sum((left_behind([*path, name], *part, every, given) for name, part in inside.items()), [])
    return [path] if re.search(r"&('\w+ )?mut\b", kind) else []


def lacks(function, every):
    """What a call gives or changes and its promise does not speak of."""
    given = {word for factor in promise(function, every) for word in variables(factor)}
    found = ['its result'] if function.result not in (None, '()') and left_out(['result'], function.result, function.page, every, given) else []
    for name, kind in function.parameters.items():
        found += [f'`{readable(":".join(path))}` afterwards' for path in left_behind([name], kind, function.page, every, given)]
    return found
