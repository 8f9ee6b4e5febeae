"""That what documents name is there: paths, and functions, types and definitions in backticks."""
import os
import re
import subprocess
from functools import partial

import wrong_bodies
from harness import CRATES, TOP, Check

TICKED = re.compile(r'(?<!`)`([^`\n]+)`(?!`)')
LINK = re.compile(r'\]\(([^)#\s]+?)(?:#[\w-]*)?\)')
FENCED = re.compile(r'^```.*?^```$', re.M | re.S)
# a name that is a function's, a type's or a definition's by its form: with `_`, `::` or `()`, or with a capital inside or in front
NAME = re.compile(r'^(?=.*(?:_|::|[a-z][A-Z]|\(\)$)|[A-Z][a-z])[A-Za-z_][\w]*(?:(?:::|\.)[A-Za-z_]\w*)*(?:\(\))?$')
PATH = re.compile(r'^[\w.-]*(?:/[\w.-]+)+/?$|^[\w-]+\.(?:md|rt|antt|edit|py|board|strategy|joined|txt)$')
# stands for any name in a path
ANY = re.compile(r'NAME|FUNCTION')


def documents():
    """All documents of the repository, from its top."""
    found = subprocess.run(['git', 'ls-files', '*.md'], cwd=TOP, capture_output=True, text=True).stdout.split()
    return [path for path in found if os.path.exists(os.path.join(TOP, path))]


def words_of_tree(top, endings):
    """All words of the files below a folder that end so."""
    found = set()
    for folder, folders, names in os.walk(top):
        folders[:] = [name for name in folders if name not in ('out', '.git')]
        for name in names:
            if name.endswith(endings):
                found.add(name.rsplit('.', 1)[0])
                with open(os.path.join(folder, name), errors='replace') as file:
                    found.update(re.findall(r'[A-Za-z_][\w-]*', ''.join(line for line in file if not line.lstrip().startswith(('//', '--')))))
    return found


def is_path(document, path):
    """Whether a path is there, from the top, from the document's folder or as the end of another path."""
    if ANY.search(path):
        return True
    places = [os.path.join(TOP, path), os.path.join(TOP, os.path.dirname(document), path)]
    if any(os.path.exists(place) for place in places):
        return True
    listed = subprocess.run(['git', 'ls-files', f'*/{path.rstrip("/")}', f'*/{path.rstrip("/")}/*'], cwd=TOP, capture_output=True, text=True)
    return listed.stdout != ''


def kit():
    """The folder of the kit."""
    return os.path.dirname(subprocess.run(['rt', 'doc'], capture_output=True, text=True).stdout.strip())


def strangers(names):
    """Those of the names that no file of the kit has as a word."""
    left = set(names)
    for part in ('rattle', 'START-HERE.md', 'FORMS-THREADS.md', 'FORMS.md'):
        if left:
            given = '\n'.join(sorted(left))
            done = subprocess.run(['grep', '-rhowFI', '-f', '-', os.path.join(kit(), part)], input=given, capture_output=True, text=True)
            left -= set(done.stdout.split())
    return left


def lacks(document):
    """None where all that the document names is there."""
    with open(os.path.join(TOP, document)) as file:
        text = file.read()
    ticked = TICKED.findall(FENCED.sub('', text))
    paths = {word for word in ticked if PATH.match(word)} | set(LINK.findall(text))
    missing = sorted(path for path in paths if not path.startswith('http') and not is_path(document, path))
    names = {part for word in ticked if NAME.match(word) and not PATH.match(word) and not ANY.search(word)
             for part in re.split(r'::|\.', word.removesuffix('()'))}
    known = words_of_tree(CRATES, ('.rt', '.antt', '.edit')) | words_of_tree(os.path.join(TOP, 'tests'), ('.py', 'run', '.c'))
    known |= wrong_bodies.names()
    unknown = {name for name in names - known if not name.endswith('_') or not any(word.startswith(name) for word in known)}
    missing += sorted(strangers(unknown)) if unknown else []
    return f'not there: {", ".join(missing)}' if missing else None


def checks(_work):
    """One for each document."""
    for document in documents():
        yield Check(f'the names of {document}', partial(lacks, document))
