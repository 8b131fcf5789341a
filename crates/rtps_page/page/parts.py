#!/usr/bin/env python3
"""The constant texts of the page that `rtps-audit page` writes, made from page.html and the files that it names.

    parts.py > ../src/page_parts.rt      writes head, middle and tail as constants

The page is head, text, middle, data and tail. The text is that of `check`, and the data is an object of JSON. What stands in
page.html for the two is a small stored report to work on the page with, and is left out.
Style and scripts stand in the page itself, without their comments and indents, and its policy allows these alone, by their
hashes, and no connection.
"""
import base64
import hashlib
import os
import re
import sys

FOLDER = os.path.dirname(os.path.abspath(__file__))
STYLE = re.compile(r'<link rel="stylesheet" href="([a-z]+\.css)">')
SCRIPT = re.compile(r'<script src="([a-z]+\.js)"></script>')
# The recorded parts, each between what stands before and behind it.
RECORDED = re.compile(r'(<pre [^>]*>\n)(.*?)(</pre>.*<script type="application/json" id="data">)(.*?)(</script>)', re.DOTALL)


def file_of(name):
    with open(os.path.join(FOLDER, name), encoding='utf-8') as f:
        return f.read()


# Comments stand on lines of their own.
COMMENTS = {
    'style': re.compile(r'/\*.*?\*/', re.DOTALL),
    'script': re.compile(r'^ *//.*$', re.MULTILINE),
    'html': re.compile(r'<!--.*?-->', re.DOTALL),
}


def without_comments(text, kind):
    """a text without its comments, indents and empty lines"""
    lines = (line.strip() for line in COMMENTS[kind].sub('', text).split('\n'))
    return ''.join(f'{line}\n' for line in lines if line)


def hash_of(text):
    return f"'sha256-{base64.b64encode(hashlib.sha256(text.encode()).digest()).decode()}'"


def inlined(page, pattern, tag):
    """the page with each of these files in place of the tag that names it, and the hashes of the files"""
    hashes = []

    def element(found):
        text = without_comments(file_of(found.group(1)), tag)
        # A script or a style ends at its closing tag alone, as long as no comment of HTML begins in it.
        assert f'</{tag}' not in text and '<!--' not in text, found.group(1)
        hashes.append(hash_of(text))
        return f'<{tag}>{text}</{tag}>'

    return pattern.sub(element, page), hashes


def parts():
    """head, middle and tail"""
    page, styles = inlined(without_comments(file_of('page.html'), 'html'), STYLE, 'style')
    page, scripts = inlined(page, SCRIPT, 'script')
    policy = f"default-src 'none'; style-src {' '.join(styles)}; script-src {' '.join(scripts)}; base-uri 'none'; form-action 'none'"
    meta = '<meta charset="utf-8">\n'
    assert page.count(meta) == 1
    page = page.replace(meta, f'{meta}<meta http-equiv="Content-Security-Policy" content="{policy}">\n')
    found = RECORDED.search(page)
    return page[:found.end(1)], found.group(3), page[found.start(5):]


def stored(text, data):
    """page.html with these recorded parts in place of those that it has"""
    return RECORDED.sub(lambda found: f'{found.group(1)}{text}{found.group(3)}{data}{found.group(5)}', file_of('page.html'))


def literal(text):
    """a text as a literal of a string, a line of it a line"""
    for octet, escape in ('\\', '\\\\'), ('"', '\\"'), ('\t', '\\t'), ('\n', '\\n\\\n'):
        text = text.replace(octet, escape)
    return f'"\\\n{text}"'


def constants():
    """head, middle and tail as a file of constants"""
    whats = 'What stands before the text', 'What stands between it and the data', 'What stands behind the data'
    lines = ['//! The constant texts of a page, which `page/parts.py` makes of the files beside it.\n']
    for name, what, part in zip(('HEAD', 'MIDDLE', 'TAIL'), whats, parts()):
        lines.append(f'\n/// {what}.\npub(crate) const {name}: &str = {literal(part)};\n')
    return ''.join(lines)


if __name__ == '__main__':
    sys.stdout.write(constants())
