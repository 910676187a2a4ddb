"""Functions of a crate under a second name, for tools/refusals.

A copy stands behind the functions of its file and has the contract, the attributes and the proof of the one that it was copied from. Nothing
calls it, so that a wrong copy fails alone, copies with different edits can be tried in one check, and no caller is proved anew. A copy without
an edit is proved as its function is, but for the name: only functions are copied whose proofs can be copied under another name.
"""
import os
import re
import shutil

from pieces import BadEdit, around, functions, in_cycle, place, read, replacements


def home(root, edit):
    """the file and the function in whose body the whole edit is, or None; a function in a cycle of calls, or that calls itself, has no proof
    of its own, and one in a comment or a module inside the file would stand elsewhere as a copy"""
    homes = set()
    for file, old, _ in replacements(edit):
        text, at = place(root, file, old)
        plain = file.startswith('src/') and not re.search(r'/\*|^ *(pub )?mod \w+ \{', text, re.M)
        homes.add((file, around(text, at, old) if plain else None))
    file, function = homes.pop() if len(homes) == 1 else (None, None)
    return (file, function) if function and not cycles(root, file, function) and has_own_proof(root, module(file), function) else None


def module(file):
    """the path of a source file's module, as steps"""
    steps = file[len('src/'):-len('.rt')].split('/')
    return steps[:-1] if steps[-1] in ('lib', 'mod') else steps


def whole(text, function):
    """the function as it stands, from its attributes on"""
    return next(text[begins:ends] for known, begins, _, ends in functions(text) if known == function)


def cycles(root, file, function):
    """whether a function is proved with others or over itself: by its attribute, by a call of its own name, or by a folder +NAME"""
    text = read(f'{root}/{file}')
    body = next(text[opens:ends] for known, _, opens, ends in functions(text) if known == function)
    # (by a path it may be another's: other::name, or a method)
    calls = any(path == '' or path.startswith(('crate::', 'self::', 'super::')) for path in re.findall(rf'(?<![\w.:])((?:\w+::)*){function}\b', body))
    folder = '/'.join([f'{root}/proofs', *module(file)])
    return calls or function in dict(in_cycle(text)) or os.path.isdir(f'{folder}/+{function}')


def has_own_proof(root, steps, function):
    """whether nothing but the function's own proof names its modules, and that by their whole paths: then the proof is a copy's too"""
    folder, path = '/'.join([f'{root}/proofs', *steps, function]), [*steps, function]
    for below, _, files in os.walk(f'{root}/proofs'):
        for text in (read(f'{below}/{file}') for file in files):
            for named in re.findall(rf'\bRattle\.{os.path.basename(root)}\.proofs\b((?:\.[^\s.;,(){{}}]+)*)', text):
                named = named.split('.')[1:]
                above, inside = path[:len(named)] == named and named != path, named[:len(path)] == path
                if above or inside and not f'{below}/'.startswith(f'{folder}/'):
                    return False
    return True


def add(root, file, function, name, edit=None):
    """adds to the crate in root a copy of a function under the name, with the edit"""
    text = read(f'{root}/{file}')
    copy = whole(text, function)
    for _, old, new in replacements(edit) if edit else []:
        if copy.count(old) != 1:
            raise BadEdit(f"an 'old:' text stands not once in {file}")
        copy = copy.replace(old, new)
    with open(f'{root}/{file}', 'a', encoding='utf8') as out:
        out.write('\n' + re.sub(rf'^((?:pub )?)fn {function}\b', rf'\g<1>fn {name}', copy, count=1, flags=re.M) + '\n')
    add_proof(root, module(file), function, name)


def add_proof(root, steps, function, name):
    """the proof of the function once more, as that of its copy"""
    folder = '/'.join([root, 'proofs', *steps])
    if not os.path.isdir(f'{folder}/{function}'):
        return
    shutil.copytree(f'{folder}/{function}', f'{folder}/{name}')
    own = re.escape('.'.join(['Rattle', os.path.basename(root), 'proofs', *steps, '']))
    for below, _, files in os.walk(f'{folder}/{name}'):
        for path in (f'{below}/{file}' for file in files):
            text = re.sub(rf"\b({own}){function}(?![\w'-])", rf'\g<1>{name}', read(path))
            # the name of the theorem in a proof by hand
            text = re.sub(rf"(?<![\w.'-]){function}_spec(?![\w'-])", f'{name}_spec', text)
            with open(path, 'w', encoding='utf8') as out:
                out.write(text)
