#!/usr/bin/env python3
"""Tests that what the documents show is what the program prints, and that what they name is there.

    tests/documents.py PROGRAM

The commands of a page that name a recording of examples/ are run, in the order of the page. So are `audit`, `why` and
`audit --json` of each recording of examples/. If a block of a page shows output, one of these has to have printed it, unless a
line of it is `..`, which is for lines that are left out; JSON may be broken into lines. If the writer of a block is in no recording of examples/, the block is about another recording, and
is only counted. The lines of code of a page have to be in the program of crates/rtps_example, in this order; `..` is for
lines that are left out. The files and folders that a page links to or names have to exist. The pages of PAGES have a limit
of lines. The last line is 'N passed, M failed'.
"""
import os
import re
import subprocess
import sys
import tempfile

sys.dont_write_bytecode = True
from program import ROOT, Counts, file_of

# Each page, and the most lines that it may have.
PAGES = {'README.md': 130, 'CONTRIBUTING.md': 120, 'CHANGELOG.md': None, 'docs/GUIDE.md': 250, 'docs/ARCHITECTURE.md': None,
         'docs/JSON.md': None, 'docs/NOT_THERE.md': None, 'docs/BOTH_SIDES.md': None, 'docs/PROOFS.md': None, 'docs/PERFORMANCE.md': None, 'docs/DECISIONS.md': 120}
# A sentence has so many octets, and what is shorter is a part of one.
LONG = 40
# What to do, in words that no table of a page has: they stand around an address, or for another number of what the table tells.
IN_NO_TABLE = ['advice.BY_FIREWALL', 'advice.NOTHING_BACK', 'no_pair.EARLY_ONE', 'no_pair.READER_ALONE']
EXAMPLES = sorted(name for name in os.listdir(os.path.join(ROOT, 'examples')) if name.endswith(('.rec', '.pcap')))
COMMANDS = 'bin/rtps-audit ', 'grep '
ANSWERS = re.compile(r'(pairs?|announced|acknowledged|payloads|received|missed|number|claimed|datagrams) ["0-9a-z]|[0-9,]+ of [0-9,]+ pairs? |topic +pairs|(not )?clean(:|$)|\{"pairs"|[0-9a-f]{24}\.[0-9a-f]{8} ')
LINKS = re.compile(r'\]\(([^)#]+)\)')
NAMED = re.compile(r'`((?:bin|bench|tests|docs|examples|crates|package|release)/[a-zA-Z0-9_./-]+)`')


def blocks_of(page):
    """the indented blocks of a page, each as its lines without the indent of its first"""
    blocks, block, indent = [], [], 0
    for line in [*page.splitlines(), '']:
        if block and line.startswith(' ' * indent):
            block.append(line[indent:])
            continue
        if block:
            blocks.append(block)
            block = []
        indent = len(line) - len(line.lstrip())
        if indent >= 4:
            block = [line[indent:]]
    return blocks


def prose_of(page):
    """a page without its code in fences, and that code"""
    parts = re.split(r'^```.*$', page, flags=re.MULTILINE)
    return ''.join(parts[::2]), parts[1::2]


def is_answer(block):
    return bool(ANSWERS.match(block[0])) and '..' not in block


def is_command(line):
    return line.startswith(COMMANDS) and ('examples/' in line or 'late.rec' in line)


def printed(program, commands, folder):
    """what each command prints, with the program in the place of bin/rtps-audit"""
    for command in commands:
        script = command.replace('bin/rtps-audit', '"$1"')
        done = subprocess.run(['sh', '-c', script, 'sh', program], cwd=folder, capture_output=True)
        yield done.stdout.decode()


def unbroken(text):
    """a text whose lines begin without spaces; JSON as one line"""
    lines = [line.lstrip() for line in text.splitlines()]
    return ''.join(lines) if text.lstrip().startswith('{') else ''.join(f'{line}\n' for line in lines)


def stands_in(code, source):
    """each line of the code is a line of the source, in this order"""
    lines = iter(line.strip() for line in source.splitlines())
    return all(wanted.strip() in lines for wanted in code.splitlines() if wanted.strip() not in ('', '..'))


def answers(tests, name, blocks, known, outputs):
    """compares the blocks of a page that show answers; how many are of another recording"""
    others = 0
    for block in filter(is_answer, blocks):
        text = unbroken('\n'.join(block))
        writer = re.search(r'[0-9a-f]{24}\.[0-9a-f]{8}', text)
        if writer and not any(writer.group() in output for output in known):
            others += 1
            continue
        tests.holds(f'{name}: {block[0]}', True, any(text in output for output in outputs))
    return others


def names(tests, name, page):
    """what a page links to, or names in one of the folders, is there"""
    links = [os.path.join(os.path.dirname(name), link) for link in LINKS.findall(page) if ':' not in link]
    for path in sorted({*links, *NAMED.findall(page)}):
        if 'NAME' not in path and '/out' not in path:
            tests.holds(f'{name} names {path}', True, os.path.exists(os.path.join(ROOT, path)))


def advice(tests):
    """what to do: each table of it is what the script makes of the sentences of the program, and has all of them but IN_NO_TABLE"""
    sys.path.insert(0, os.path.join(ROOT, 'docs'))
    import tables
    for name, page, made in tables.pages():
        tests.holds(f'{name} has the table that docs/tables.py makes', made, page)
    tests.holds('the sentences that are in no table', IN_NO_TABLE, sorted(tables.lacking()))
    said = [text for constants in tables.sentences.modules().values() for text in constants.values()]
    tests.holds('no two sentences are one', sorted(set(said)), sorted(said))
    tests.holds('files that say a sentence in words of their own', [], sorted(repeating([text for text in said if len(text) >= LONG])))


def repeating(sentences):
    """files of the program and of the second implementation that have one of these in quotes, but for the file of them all"""
    for folder in ('crates', 'bench', 'docs'):
        for at, folders, names in os.walk(os.path.join(ROOT, folder)):
            folders[:] = [name for name in folders if name != 'out']
            for name in names:
                if name.endswith(('.rt', '.antt', '.py')) and name != 'sentences.rt':
                    text = file_of(os.path.join(at, name)).decode()
                    yield from (os.path.join(at, name) for one in sentences if f'"{one}' in text or f"'{one}" in text)


def main():
    if len(sys.argv) != 2:
        raise SystemExit(__doc__)
    program, tests, others, commands = os.path.realpath(sys.argv[1]), Counts(), 0, 0
    example = file_of('crates', 'rtps_example', 'src', 'main.rt').decode()
    advice(tests)
    with tempfile.TemporaryDirectory() as folder:
        os.symlink(os.path.join(ROOT, 'examples'), os.path.join(folder, 'examples'))
        whole = [f'bin/rtps-audit {view} examples/{name}' for view in ('audit', 'why', 'audit --json') for name in EXAMPLES]
        known = [unbroken(output) for output in printed(program, whole, folder)]
        for name, most in PAGES.items():
            page = file_of(*name.split('/')).decode()
            prose, codes = prose_of(page)
            blocks = blocks_of(prose)
            run = [line.split('  #')[0] for block in blocks for line in block if is_command(line)]
            outputs = known + [unbroken(output) for output in printed(program, run, folder)]
            commands += len(run)
            others += answers(tests, name, blocks, known, outputs)
            for code in codes:
                tests.holds(f'{name}: its code is that of the example', True, stands_in(code, example))
            names(tests, name, page)
            if most:
                tests.holds(f'{name} has at most {most} lines', True, len(page.splitlines()) <= most)
    print(f'documents: {commands} commands run, {tests.passed + tests.failed} things compared, {others} answers of another recording')
    return tests.told()


if __name__ == '__main__':
    sys.exit(main())
