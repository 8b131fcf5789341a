"""What is asked of a recording: from which number on, and of a report which topics and nodes, how many rows, how long a tail may be, whether each
number has to be received for certain, and which other recording says what arrived. `audit` is asked whether samples in DATA_FRAG count; a
report reads them always."""
import re

from ros import ros_topic

# the greatest number of a sample, and of what may be asked
GREATEST = 2 ** 63 - 1


def fits(pattern, topic):
    """whether a topic is the pattern with some octets in the place of each `*`"""
    parts = [re.escape(part) for part in pattern.split(b'*')]
    return re.fullmatch(b'.*'.join(parts), topic, re.DOTALL) is not None


class Asked:
    def __init__(self, first=1, topics=(), expect=None, fragments=False, tail=0, certain=False, arrived=None, nodes=()):
        self.first, self.topics, self.nodes, self.expect, self.fragments = first, list(topics), list(nodes), expect, fragments
        self.tail, self.certain, self.arrived = tail, certain, arrived

    def words(self):
        """the words of the command line that ask so"""
        words = ['--from', str(self.first)] if self.first != 1 else []
        for topic in self.topics:
            words += ['--topic', topic]
        for node in self.nodes:
            words += ['--node', node]
        words += ['--expect', str(self.expect)] if self.expect is not None else []
        words += ['--fragments'] if self.fragments else []
        words += ['--tail', str(self.tail)] if self.tail else []
        words += ['--certain'] if self.certain else []
        return words + (['--arrived', self.arrived] if self.arrived is not None else [])

    def chooses(self, topic):
        """whether a topic is asked for, by its name of DDS or of ROS 2"""
        return not self.topics or any(fits(pattern.encode(), name) for pattern in self.topics for name in (topic, ros_topic(topic)))

    def chooses_nodes(self, writer, reader):
        """whether one of the nodes of a pair is asked for; an end that has none is none that is asked for"""
        there = [node for node in (writer, reader) if node is not None]
        return not self.nodes or any(fits(pattern.encode(), node) for pattern in self.nodes for node in there)


PLAIN = Asked()


def asked_by(words):
    """what these words of a command line ask"""
    def values(name):
        return [words[i + 1] for i in range(len(words) - 1) if words[i] == name]

    return Asked(first=int((values('--from') + ['1'])[0]), topics=values('--topic'), nodes=values('--node'),
                 expect=int(values('--expect')[0]) if '--expect' in words else None, fragments='--fragments' in words,
                 tail=int((values('--tail') + ['0'])[0]), certain='--certain' in words, arrived=(values('--arrived') + [None])[0])
