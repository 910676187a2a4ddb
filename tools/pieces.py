"""What rests on what inside a crate, for tools/refusals.

A crate falls into pieces: each top-level function of src/ ('fn NAME'), what a file of src/ has outside of those ('src/lib.rt'), and each
file of specs/ and proofs/. A piece rests on those that it names and on all that they rest on. Names are looked for in plain text, so that
a piece may seem to rest on more than it does. An edit also changes what its new text names and the old did not.
"""
import os
import re

# the files of a function's proof, in its folder below proofs/
PROOFS = ('/Invariants.antt', '/Answers.antt', '/Proof.antt')


class BadEdit(Exception):
    """an edit that cannot be applied"""


def read(path):
    with open(path, encoding='utf8') as file:
        return file.read()


def replacements(edit):
    """the edit's (file, old, new)"""
    file = old = ''
    found = []
    for line in read(edit).split('\n'):
        if line.startswith('file: '):
            file = line[6:]
        elif line.startswith('old: ') and not old:
            old = line[5:]
        elif line.startswith('new:') and old:
            found.append((file, old, line[4:].removeprefix(' ')))
            old = ''
        elif line.startswith(('old:', 'new:')):
            raise BadEdit("an 'old:' or 'new:' line has no partner")
    if old or not found:
        raise BadEdit("it has no 'old:' and 'new:' pair")
    return found


def place(root, file, old):
    """the text of a file of the crate, and where the one 'old:' text begins"""
    if '..' in file.split('/') or file.split('/')[0] not in ('src', 'specs', 'proofs') or not os.path.isfile(f'{root}/{file}'):
        raise BadEdit(f"a 'file:' line names no file of the crate: {file}")
    text = read(f'{root}/{file}')
    if not old or text.count(old) != 1:
        raise BadEdit(f"an 'old:' text stands not once in {file}")
    return text, text.index(old)


def functions(text):
    """the top-level functions of a source file: (name, where its attributes or its head begin, where its body begins, where it ends); one
    whose body does not begin at the end of a line counts as outside of functions"""
    found = []
    for head in re.finditer(r'^(?:pub )?fn (\w+)', text, re.M):
        opened = re.compile(r'^\{$|^.*\) .*\{$', re.M).search(text, head.start())
        closed = text.find('\n}', opened.start()) if opened else -1
        if closed >= 0 and not re.search(r'\n[\w#/\n]', text[head.start():opened.end()]):
            found.append((head.group(1), attributes(text, head.start()), opened.end(), closed + 2))
    return found


def attributes(text, head):
    """where the attributes of the item begin whose head begins there, such as #[tactic(auto, using(..))]; without any, the head"""
    found = at = head
    while at > 0:
        at = text.rfind('\n', 0, at - 1) + 1
        line = text[at:found].split('\n')[0]
        if not line.strip() or line.rstrip().endswith(('}', ';')):
            break
        if line.startswith('#['):
            found = at
    return found


def in_cycle(text):
    """the functions of a source text that have one proof with others, each with the name of their cycle: #[cycle(NAME)]"""
    cycles = re.finditer(r'^#\[cycle\((\w+)\)\](?:\n(?!\n).*)*?\n(?:pub )?fn (\w+)', text, re.M)
    return [(cycle.group(2), cycle.group(1)) for cycle in cycles]


def around(text, at, old):
    """the function of a source text in whose body a part of it stands, or None"""
    return next((function for function, _, opens, ends in functions(text) if opens <= at < at + len(old) < ends), None)


def outside(text):
    """what a source file has outside of its functions"""
    kept, at = '', 0
    for _, begins, _, ends in functions(text):
        kept += text[at:begins]
        at = ends
    return kept + text[at:]


def files_below(root):
    """the crate's files of src/, specs/ and proofs/, as paths in the crate"""
    for part in ('src', 'specs', 'proofs'):
        for folder, _, names in os.walk(f'{root}/{part}'):
            yield from (os.path.relpath(f'{folder}/{name}', root) for name in names if name.endswith(('.rt', '.antt')))


class Pieces:
    """the pieces of one crate; under[PIECE] is the set of those that it rests on, itself among them"""

    def __init__(self, name, root):
        self.name, self.root = name, root
        self.texts = {file: read(f'{root}/{file}') for file in files_below(root)}
        self.sources = [file for file in self.texts if file.startswith('src/')]
        # files that declare others: all may rest on such a file
        self.nodes = {file for file, text in self.texts.items() if file.endswith('.antt') and re.search(r'^(pub )?mod ', text, re.M)}
        self.direct = {}
        self.add_files()
        self.add_functions()
        self.under = {piece: self.reach(piece) for piece in self.direct}

    def add_files(self):
        for file, text in self.texts.items():
            if file in self.nodes:
                self.direct[file] = self.modules_in(text)
            elif file in self.sources:
                self.direct[file] = set(self.sources) | self.nodes | self.modules_in(outside(text)) | self.called_in(outside(text))
            else:
                self.direct[file] = self.nodes | self.modules_in(text)

    def add_functions(self):
        for file in self.sources:
            for function, begins, _, ends in functions(self.texts[file]):
                text = self.texts[file][begins:ends]
                self.direct.setdefault(f'fn {function}', set()).update({file}, self.modules_in(text), self.called_in(text))
        cycles = {}
        for file in self.sources:
            for function, cycle in in_cycle(self.texts[file]):
                cycles.setdefault(cycle, []).append(function)
        for file in self.texts:
            if file.endswith(PROOFS):
                # the proof of one function, of one that calls itself, proofs/+sum_to/, or of those with #[cycle(parity)], proofs/+parity/
                home = file.split('/')[-2]
                for function in re.findall(r'\w+', home) + cycles.get(home.removeprefix('+'), []):
                    self.direct.setdefault(f'fn {function}', set(self.sources)).add(file)

    def modules_in(self, text):
        """the pieces whose modules a text names: files of specs/ and proofs/, types of the code, functions"""
        found = set()
        named = re.findall(rf'\bRattle\.{self.name}\.(specs|proofs)\b((?:\.[^\s.;,(){{}}]+)*)', text)
        # in an attribute, as using(crate::proofs::Laws::is_twice)
        named += [(part, path.replace('::', '.')) for part, path in re.findall(r'\bcrate::(specs|proofs)\b((?:::\w+)*)', text)]
        for part, path in named:
            steps = path.split('.')[1:]
            files = (f"{part}/{'/'.join(steps[:n])}.antt" for n in range(1, len(steps) + 1))
            found.update(file for file in files if file in self.texts)
            # by a name for a module that has others below it, each of those may be named
            if not steps or f"{part}/{'/'.join(steps)}.antt" in self.nodes:
                found.update(file for file in self.texts if file.startswith('/'.join([part, *steps, ''])))
            if part == 'proofs' or 'contracts' in steps:
                found.update(f'fn {function}' for step in steps for function in re.findall(r'\w+', step))
            if 'declared' in steps or 'contracts' in steps:
                found.update(self.sources)
        return found

    def called_in(self, text):
        """the functions whose names stand in a text, its comments and what it imports of definitions left out"""
        return {f'fn {word}' for word in re.findall(r'\w+', re.sub(r'^\s*(//|ghost use ).*', '', text, flags=re.M))}

    def reach(self, piece):
        seen, todo = set(), [piece]
        while todo:
            one = todo.pop()
            if one in self.direct and one not in seen:
                seen.add(one)
                todo += self.direct[one]
        return seen

    def touched(self, edit):
        """the pieces that an edit changes: of a source file the functions in whose bodies it is, else the file itself; and what they did
        not rest on before"""
        found = set()
        for file, old, new in replacements(edit):
            text, at = place(self.root, file, old)
            function = around(text, at, old) if file in self.sources else None
            piece = f'fn {function}' if function else file
            named = self.modules_in(new) | (self.called_in(new) if file in self.sources else set())
            found |= {piece} | set().union(*map(self.reach, named)) - self.under.get(piece, set())
        return found

    def witnesses(self, mine, others):
        """the pieces that rest on what one edit changes and on nothing that the others change: an error there is the one edit's"""
        return {piece for piece, under in self.under.items() if under & mine and not under & others}

    def likely(self, mine, witnesses):
        """whether an error will show in a witness: a wrong function fails itself, a wrong definition fails in what names it"""
        places = {piece for piece in mine if piece.startswith('fn ')}
        places = places or {piece for piece, named in self.direct.items() if piece.startswith(('fn ', 'proofs/')) and named & mine}
        return witnesses and 2 * len(places & witnesses) >= len(places)

    def told_apart(self, changes):
        """for a list of what each edit changes: each edit's witnesses, or None where they are too few for one, or two change one piece"""
        if len(set().union(*changes)) < sum(map(len, changes)):
            return None
        found = [self.witnesses(mine, set().union(*changes[:n], *changes[n + 1:])) for n, mine in enumerate(changes)]
        return found if all(self.likely(mine, witnesses) for mine, witnesses in zip(changes, found)) else None

    def failed_in(self, text, where):
        """the pieces that the prover's text has an error of, the crate being in the folder where"""
        named = re.findall(rf'^fn {self.name}::(?:\w+::)*(\w+): (?:not proved|no proof)', text, re.M)
        placed = re.findall(rf'^{re.escape(where)}/((?:specs|proofs)/.*?\.antt):\d+:\d+: error', text, re.M)
        return {f'fn {function}' for function in named} | set(placed)
