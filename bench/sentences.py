"""The sentences of the program. Each stands once, as a constant of the program's source, in crates/rtps_lines/src/sentences.rt. This implementation
finds on its own which of them is said, and reads them there: the words are the same, and what they are said of is found twice.

`advice.LOST` is the constant LOST of the module `advice`. Words for an amount are two constants, NAME_ONE and NAME_MANY; `noted.words('CUT')` has both.
"""
import os
import re

FILE = os.path.join(os.path.dirname(os.path.dirname(os.path.realpath(__file__))), 'crates', 'rtps_lines', 'src', 'sentences.rt')
MODULE = re.compile(r'^pub mod (\w+) \{\n(.*?)^\}', re.MULTILINE | re.DOTALL)
CONSTANT = re.compile(r'^    pub const (\w+): &str =\s+"([^"\\]*)";', re.MULTILINE)


class Sentences(dict):
    """the constants of a module, by their names"""
    __getattr__ = dict.__getitem__

    def words(self, name):
        return self[f'{name}_ONE'], self[f'{name}_MANY']


def modules():
    with open(FILE, encoding='utf-8') as file:
        return {name: Sentences(CONSTANT.findall(constants)) for name, constants in MODULE.findall(file.read())}


advice, no_pair, noted, ways, reason, block = map(modules().get, ('advice', 'no_pair', 'noted', 'ways', 'reason', 'block'))
