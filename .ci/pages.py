#!/usr/bin/env python3
"""Checks the pages that speak of modules and names, or with --write makes docs/MODULES.md anew.

docs/MODULES.md has to say what the first lines of the modules say. Each name in code font of docs/DEFINITIONS.md and
docs/PROVED.md that looks like one of the repository's has to stand in specs/ or src/, and each file that they name has to be
there. In README.md and docs/ no cell of a table may have more than 40 words, and each link to a file has to lead to one. It
changes nothing but with --write."""
import pathlib
import re
import sys

TOP = pathlib.Path(__file__).resolve().parent.parent
MODULES = TOP / 'docs' / 'MODULES.md'
MOST_WORDS = 40

HEAD = """# The modules

Every module, by crate, with the first sentence of its file: `.ci/pages.py --write` makes this page, and the gate checks it.
The crates stand in the order of `crates.txt`, each above those that stand on it.
"""


def crates():
    """The crates in the order of crates.txt."""
    names = []
    for line in (TOP / 'crates.txt').read_text().splitlines():
        line = line.split('#')[0].strip()
        if line:
            names.append(re.split(r'[ :]', line)[0])
    return names


def first_sentence(path):
    """The first sentence of a file's first comment, or None."""
    mark = '//!' if path.suffix == '.rt' else '--'
    words = []
    for line in path.read_text().splitlines():
        if not line.startswith(mark) or not line[len(mark):].strip():
            break
        words.append(line[len(mark):].strip())
    text = ' '.join(words)
    if not text:
        return None
    text = re.split(r'(?<=[^.][.])\s', text)[0].rstrip('.:')
    if len(text.split()) > MOST_WORDS:
        text = re.split(r'[:;]\s', text)[0]
    return text[0].upper() + text[1:] + '.'


def rows(crate):
    """The modules of a crate: paths from its folder, and sentences."""
    folder = TOP / 'crates' / crate
    for part, pattern in ('src', '**/*.rt'), ('specs', '**/*.antt'), ('proofs', '*.antt'):
        paths = sorted((folder / part).glob(pattern), key=lambda p: (p.stem not in ('lib', 'main'), str(p)))
        for path in paths:
            if path.name != 'Lib.antt':
                yield path.relative_to(folder), first_sentence(path)


def modules_page(problems):
    """The text of docs/MODULES.md."""
    out = [HEAD]
    for crate in crates():
        out.append(f'\n## {crate}\n\n| module | what is in it |\n|---|---|\n')
        for path, sentence in rows(crate):
            if sentence is None:
                problems.append(f'crates/{crate}/{path} has no first line that says what is in it')
                continue
            cell = sentence.replace('|', '\\|')
            out.append(f'| [{path}](../crates/{crate}/{path}) | {cell} |\n')
    return ''.join(out)


def known_words():
    """Every word of specs/ and src/, of file names and of crates.txt."""
    words = set(crates())
    for part in 'specs/**/*.antt', 'src/**/*.rt':
        for path in (TOP / 'crates').glob('*/' + part):
            code = re.sub(r'(?m)(//|-- |--$).*$', '', path.read_text())
            words.update(re.findall(r'[A-Za-z_][A-Za-z0-9_]*', code))
            words.add(path.stem)
    return words


def check_names(page, words, problems):
    """Each name in code font is a word of specs/ or src/, and each file that is named is there."""
    text = (TOP / page).read_text()
    text = re.sub(r'^    .*$', '', text, flags=re.M)
    crate = None
    for number, line in enumerate(text.splitlines(), 1):
        for code in re.findall(r'`([^`]+)`', line):
            if code in words and (TOP / 'crates' / code).is_dir():
                crate = code
            if '/' in code and ' ' not in code:
                places = [TOP / code] + [TOP / 'crates' / code]
                if crate:
                    places.append(TOP / 'crates' / crate / code)
                if not any(place.exists() for place in places):
                    problems.append(f'{page}:{number}: there is no file {code}')
            elif re.fullmatch(r'[A-Za-z_][A-Za-z0-9_]*(::[A-Za-z0-9_]+)*', code):
                for name in code.split('::'):
                    if name not in words:
                        problems.append(f'{page}:{number}: no module has the name {name}')


def check_cells(problems):
    """No cell of a table has too many words."""
    for path in [TOP / 'README.md'] + sorted((TOP / 'docs').glob('*.md')):
        for number, line in enumerate(path.read_text().splitlines(), 1):
            if line.startswith('|'):
                for cell in line.strip().strip('|').split(' | '):
                    if len(cell.split()) > MOST_WORDS:
                        problems.append(f'{path.relative_to(TOP)}:{number}: a cell of {len(cell.split())} words')


def check_links(problems):
    """Each link to a file leads to one."""
    for path in [TOP / 'README.md'] + sorted((TOP / 'docs').glob('*.md')):
        for number, line in enumerate(path.read_text().splitlines(), 1):
            for target in re.findall(r'\]\(([^)#]+)', line):
                if '://' not in target and not (path.parent / target).exists():
                    problems.append(f'{path.relative_to(TOP)}:{number}: there is no {target}')


def main():
    problems = []
    page = modules_page(problems)
    if sys.argv[1:] == ['--write']:
        MODULES.write_text(page)
    elif not MODULES.exists() or MODULES.read_text() != page:
        problems.append('docs/MODULES.md is not as the first lines say: run .ci/pages.py --write')
    words = known_words()
    for name in 'docs/DEFINITIONS.md', 'docs/PROVED.md':
        check_names(name, words, problems)
    check_cells(problems)
    check_links(problems)
    for problem in problems:
        print(problem, file=sys.stderr)
    sys.exit(1 if problems else 0)


main()
