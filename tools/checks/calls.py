"""The public calls of the crates: their heads, documentation, clauses and bodies, and what they may refuse with."""
import functools
import os
import re

import specs

TOP = os.path.dirname(os.path.dirname(os.path.dirname(os.path.abspath(__file__))))
CRATES = os.path.join(TOP, 'crates')
SHARED = ('refused', 'refused_sets', 'rows_shared', 'set_words', 'program_words')
# Errors that are listed whole: those of the objects of the outside, and those of calls that one of their own belongs
# to.
WHOLE = ('ReadFault', 'WriteFault', 'SinkFault', 'StoreError', 'TreeError', 'InputError', 'ConvertError', 'ImportError', 'ExtractError', 'Outcome', 'VerifyOutcome', 'ServeOutcome', 'ExtractOutcome')
# Words of clauses that name a refusal.
NAMING = {'IsUnfailing': 'StoreFault'}


@functools.lru_cache(None)
def text(path):
    with open(path, encoding='utf-8') as file:
        return file.read()


def sources(crate):
    for at, _, names in sorted(os.walk(f'{CRATES}/{crate}/src')):
        for name in sorted(names):
            if name.endswith('.rt'):
                yield os.path.join(at, name)


@functools.lru_cache(None)
def crate_names():
    lines = (line.split('#')[0] for line in text(f'{TOP}/crates.txt').splitlines())
    return [line.split(':')[0].split()[0] for line in lines if ':' in line]


def errors():
    """The error types, each with its variants, and the types of the others that these hold."""
    found = {}
    for crate in crate_names():
        for path in sources(crate):
            for name, body in re.findall(r'^pub enum (\w*(?:Error|Fault|Outcome|Cause)) \{\n(.*?)^\}', text(path), re.M | re.S):
                found[name] = re.findall(r'^    (\w+)', body, re.M)
    return found


@functools.lru_cache(None)
def libraries():
    """The crates that lend calls to others."""
    return [it for it in crate_names() if os.path.exists(f'{CRATES}/{it}/src/lib.rt') and it not in SHARED]


@functools.lru_cache(None)
def exported(crate):
    """The names that a crate lends to others."""
    names = set()
    for group in re.findall(r'^pub use ([^;]*);', text(f'{CRATES}/{crate}/src/lib.rt'), re.M):
        names.update(re.findall(r'(\w+)\s*(?=[,}]|$)', group))
    return names


@functools.lru_cache(None)
def direct():
    """The crates that each crate names in crates.txt."""
    return {name: [it for it in needs if it in crate_names()] for name, needs in specs.crate_lines(TOP).items()}


class Call:
    """A function: its head, its documentation, its clauses and its body, and whether it is a public call."""

    def __init__(self, crate, owner, block, name, head, words, clauses, body, public):
        self.crate, self.owner, self.block, self.name, self.head, self.words, self.clauses = crate, owner, block, name, head, words, clauses
        self.body, self.public = body, public
        self.error_type = self.find_error()

    def plain(self):
        return f'{self.owner}::{self.name}' if self.owner else self.name

    def shown(self):
        return f'`{self.plain()}`'

    def asks_outside(self):
        """Whether it takes an object of the outside, which may fail."""
        return bool(re.search(r'\b(TileStore|TileTree|Backend|Medium|Source|Sink)\b', self.block + self.head))

    def answer(self):
        return self.head.split('->')[-1].strip() if '->' in self.head else ''

    def error(self):
        return self.error_type

    def find_error(self):
        answer = re.sub(r'^Option<(.*)>$', r'\1', self.answer())
        if answer.startswith('PmtResult'):
            return 'PmtError'
        if answer.startswith('MbtResult'):
            return 'MbtError'
        found = re.search(r'^(?:io::)?Result<.*?(\w+)>$', answer)
        return found[1] if found else answer if answer.endswith('Outcome') else None

    def variants(self, known):
        return [it for it in known.get(self.error(), []) if it != 'OutOfMemory' and not (self.error().endswith('Outcome') and it == 'Done')]

    def named(self, known):
        """The refusals that its documentation and its clauses name."""
        said = self.words + ' '.join(re.sub(r'≢ (Err )?\w+\.\w+', '', body) for _, body in self.clauses)
        said += ''.join(f' {it}' for word, it in NAMING.items() if word in said)
        return {it for it in self.variants(known) if self.error() in WHOLE or re.search(rf'(?<!causes\.)\b{it}\b', said)}

    def own(self, below, known):
        """The refusals that it names itself, and those of the bodies below it, as long as its documentation doesn't
        list all tests in their order."""
        return self.named(known) | (below & {'StoreFault'} if re.search(r'\b1\. ', self.words) else below)

    def refusals(self, known):
        error = self.error()
        own, handed = below_call(self, known)
        own = self.own(own, known)
        named = [it for it in self.variants(known) if it in own]
        said = dict.fromkeys(re.findall(r'(?:refusals of|those of) `([\w:]+)`', self.words))
        said = {name for name in said if not any(name in (it.plain(), it.name) for it in handed)}
        for name in said:
            handed += [it for it in asked_by(self.crate).get(name.split('::')[-1], []) if it.public and it.error() == error and name in (it.plain(), it.name)][:1]
        others = []
        for it in sorted(handed, key=lambda it: (-len(all_refusals(it, known)), it.plain())):
            if all_refusals(it, known) - own - set().union(*(all_refusals(other, known) for other in others)):
                others.append(it)
        more = [f'those of `{name}`' for name in sorted(dict.fromkeys(f'{it.plain()}` of `{it.crate}' if it.plain() == self.plain() else it.plain() for it in others))]
        variants = known.get(error, [])
        exact = any(re.match(r'result ≡ refused_by\b', body.strip()) for _, body in self.clauses)
        last = [] if exact else ['`OutOfMemory`'] if 'OutOfMemory' in variants or error in ('OutOfMemory', 'AllocError') else [f'`{error}`'] if error in ('MediumFault', 'SourceFault') else []
        return ', '.join([f'`{it}`' for it in named] + more + last)

    def writes(self):
        return bool(re.search(r"&(?:'\w+ )?mut", self.head.split('->')[0].replace('steps: &mut', '')))

    def after(self):
        return [name for name, body in self.clauses if re.search(r'\.new\b|Leaves|RestsIfErr|\.(backend|store|medium)\.now\b', body)]

    def on_answer(self):
        return [name for name, body in self.clauses if name not in self.after()]


def calls_of(crate):
    """The public calls of a crate: those of exported names, those of exported types, and the methods of exported
    traits."""
    return [it for it in functions_of(crate) if it.public]


@functools.lru_cache(None)
def functions_of(crate):
    """The functions of a crate."""
    names = exported(crate)
    found = []
    for path in sources(crate):
        source = text(path)
        lines = source.splitlines(keepends=True)
        plain = re.sub(r'//.*', lambda it: ' ' * len(it[0]), source)
        owner, is_trait, is_trait_impl, opening, words, place = '', False, False, '', [], 0
        for line in lines:
            place, line = place + len(line), line.rstrip('\n')
            block = re.match(r'(?:#\[.*\] *)?(pub trait|impl)(?:<.*?>)? (?:.* for )?(\w+)', line)
            if block:
                owner, is_trait, opening = block[2], block[1] == 'pub trait', line
                is_trait_impl = ' for ' in line
            elif line == '}':
                owner = ''
            head = re.match(r'( *)(pub(?:\(crate\))? (?:const )?)?(?:final )?fn (\w+)', line)
            if re.match(r' *///', line):
                words.append(line.strip()[3:])
            elif head:
                inner = bool(head[1])
                shown = (head[2] or '').startswith('pub ') or inner and is_trait
                public = shown and (owner in names and not (inner and not is_trait and is_trait_impl) if inner else head[3] in names)
                told, clauses, body = read_call(plain, place - len(line) - 1)
                found.append(Call(crate, owner if inner else '', opening if inner else '', head[3], told, ' '.join(words), clauses, body, public))
                words = []
            elif not re.match(r' *(#\[|//)', line):
                words = []
    return found


@functools.lru_cache(None)
def asked_by(crate):
    """The functions that a crate may call, by name: its own, and the public ones of the crates that it names."""
    found = {}
    for it in functions_of(crate):
        found.setdefault(it.name, []).append(it)
    for other in sorted(direct()[crate]):
        for it in calls_of(other):
            found.setdefault(it.name, []).append(it)
    return found


def callees(call):
    """The functions that a body calls: by `Type::name`, by `name` alone, or as methods."""
    asked = asked_by(call.crate)
    for before, name in re.findall(r'(\w+::|\w*\.)?\b([a-z]\w*)(?:::<[^;{]*?>)?\(', call.body):
        if before.endswith('::') and (before[0].isupper()):
            owner = call.owner if before == 'Self::' else before[:-2]
            found = [it for it in asked.get(name, []) if it.owner == owner]
        elif before.endswith('.'):
            found = [it for it in asked.get(name, []) if it.owner]
            near = before[:-1].lower()
            found = [it for it in found if near == 'self' and it.owner == call.owner] or [it for it in found if near and near != 'self' and near in it.owner.lower()] or found
        else:
            found = [it for it in asked.get(name, []) if not it.owner]
            crate = before[:-2] if before[:-2] in crate_names() else call.crate
            found = [it for it in found if it.crate == crate] or found
        yield from (it for it in found if it is not call)


BELOW = {}


def below_call(call, known):
    """The refusals that a body and the bodies below it name, up to public calls, and these."""
    if call not in BELOW:
        BELOW[call] = find_below(call, known)
    own, handed = BELOW[call]
    return set(own), list(handed)


def find_below(call, known):
    error = call.error()
    own, handed, seen, open_ = set(), [], [call], [call]
    while open_:
        at = open_.pop()
        named = set(re.findall(rf'\b{error}::(\w+)\b(?!\([^()]*\) *(?:=>|\|)|(?: \{{[^}}]*\}})? *(?:=>|\|)|\)+ *(?:=>|\|))', at.body))
        own |= named & set(call.variants(known))
        for it in callees(at):
            if it.error() == 'StoreError' and it.owner == 'TileStore' and 'StoreFault' in known.get(error, []):
                own.add('StoreFault')
            if it in seen or it.error() is None:
                continue
            seen.append(it)
            if it.public and it.error() == error:
                handed.append(it)
            elif it.crate == call.crate and not it.public:
                open_.append(it)
    return own, handed


ALL = {}


def all_refusals(call, known):
    """All refusals of a call, with those of the calls below it."""
    if call not in ALL:
        ALL[call] = call.named(known)
        own, handed = below_call(call, known)
        ALL[call] = call.own(own, known).union(*(all_refusals(it, known) for it in handed))
    return ALL[call]


TOKEN = re.compile(r'(?<=\s)(requires|ensures|decreases)\*?(?: (\w+))? \{|[(\[\])]|[{;]')
BRACE = re.compile(r'[{}]')


def closed(source, at):
    """The place behind the brace that closes the one before a place."""
    open_ = 1
    while open_:
        found = BRACE.search(source, at)
        if not found:
            return len(source)
        open_ += 1 if found[0] == '{' else -1
        at = found.end()
    return at


def read_call(source, begin):
    """The head of the call that stands at a place of a text without comments, its clauses by name, and its body."""
    at, depth, head, clauses = begin, 0, None, []
    while True:
        found = TOKEN.search(source, at)
        if not found:
            at = end = len(source)
            break
        if found[1]:
            head = source[begin:found.start()] if head is None else head
            at = closed(source, found.end())
            if found[1] == 'ensures':
                clauses.append((found[2] or 'its contract', source[found.end():at - 1]))
            continue
        at = found.start()
        if found[0] in '([':
            depth += 1
        elif found[0] in ')]':
            depth -= 1
        elif depth == 0:
            end = closed(source, at + 1) if found[0] == '{' else at + 1
            break
        at = found.end()
    head = ' '.join((source[begin:at] if head is None else head).split())
    return head.split(' where ')[0].strip(), clauses, source[at:end]
