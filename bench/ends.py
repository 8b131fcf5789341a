"""How a report tells who an end is: a part of the second implementation.

**Titles.** An endpoint's title is its node of ROS 2, or else the program of its process, or else the name of its participant. A participant's title
is its node, where it has exactly one, or else the same two. Where nothing of that is known there is no title.

**An end.** A writer, a reader or a participant is told with its title, with its process in brackets, and with its GUID:
`/talker (pid 7 on robot1, 10.0.0.2) GUID`. What is not known is left out, the brackets too. Where neither a title nor a process nor a host is known
it is told as `GUID at 10.0.0.2`, or by its GUID alone. A line of `why` that begins with `pair` has no such `at`.

**A process.** The head of an event tells a participant by its process, `process 7 on robot1` or `process 7 at 10.0.0.2` or `process 7`; or else by its
address alone, or else as `participant GUID`.

**JSON.** A pair has at its end `writer_node` and `reader_node`, and a participant `host`, `process`, `pid`, `name`, `enclave` and `nodes`. What is not
known is null. Texts are those of the recording, written as names are.
"""
from policies import address_text
from reference import guid_text, name_text
from who import PARTICIPANT


def text_or_none(octets):
    return None if octets is None else name_text(octets)


class End:
    """what is known of a writer, a reader or a participant"""

    def __init__(self, announced, who, guid):
        self.guid, self.process = guid, who.process(guid[:12])
        # what the guid is of is told by its last octets
        self.node = who.only_node(guid[:12]) if guid[12:] == PARTICIPANT else who.node(guid)
        titles = (self.node, self.process.program, self.process.name)
        self.title = next((title for title in titles if title is not None), None)
        address = announced.address(guid)
        self.address = address and address_text(address)

    def is_named(self):
        return any(known is not None for known in (self.title, self.process.pid, self.process.host))

    def where(self):
        """its process, its host and its address"""
        pid = [] if self.process.pid is None else [f'pid {self.process.pid}']
        host = [] if self.process.host is None else [f'on {name_text(self.process.host)}']
        return ', '.join(([' '.join(pid + host)] if pid or host else []) + ([self.address] if self.address else []))

    def named(self):
        """its title, its process and its GUID"""
        title = [] if self.title is None else [name_text(self.title)]
        where = [f'({self.where()})'] if self.where() else []
        return ' '.join([*title, *where, guid_text(self.guid)])

    def text(self):
        if self.is_named():
            return self.named()
        return guid_text(self.guid) + (f' at {self.address}' if self.address else '')

    def text_in_a_pair(self):
        """as a line of `why` has it that names both ends"""
        return self.named() if self.is_named() else guid_text(self.guid)

    def process_text(self):
        """as the head of an event has it"""
        if self.process.pid is None:
            return self.address or f'participant {guid_text(self.guid)}'
        host, address = self.process.host, self.address
        where = f' on {name_text(host)}' if host is not None else f' at {address}' if address else ''
        return f'process {self.process.pid}{where}'


def node_members(who, w, r):
    return {'writer_node': text_or_none(who.node(w)), 'reader_node': text_or_none(who.node(r))}


def process_members(who, guid):
    """of a participant"""
    process = who.process(guid[:12])
    return {'host': text_or_none(process.host), 'process': text_or_none(process.program), 'pid': process.pid, 'name': text_or_none(process.name),
            'enclave': text_or_none(process.enclave), 'nodes': [name_text(node) for node in who.nodes_in(guid[:12])]}
