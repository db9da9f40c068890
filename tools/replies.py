"""The replies of a page of the program, one by one, for the tools that show them.

docs/formats.md has the form of a page. `relations.py` reads one reply's relation; this reads all there are.
"""
import re

from relations import Bad, reply_at

HEAD = re.compile(r"(\d+)\.(\d+): (.*)")
EVENT = re.compile(r"(\d+)\.(\d+) (read|assign .+|drop .+)")
TYPED = re.compile(r"(\d+\.\d+): (?:(\d+) x (\d+)(?:, pairs (\d+))?)?.*")
REFUSED = re.compile(r"refused: (?:(\d+):(\d+): )?(.*)")


class Reply:
    """A reply: the numbers of its session and item, the rest of its first line, and the lines below."""

    def __init__(self, session, item, head, lines, relation):
        self.session, self.item, self.head, self.lines, self.relation = session, item, head, lines, relation

    @property
    def refusal(self):
        """The line, the column and the reason of a refusal, the first two None where it has no place; else None."""
        found = REFUSED.fullmatch(self.head)
        return found and (int(found[1]) if found[1] else None, int(found[2]) if found[2] else None, found[3])

    def text(self, number=None):
        """The reply as the page has it, under another number where one is given."""
        return "\n".join([f"{number or f'{self.session}.{self.item}'}: {self.head}", *self.lines])


def replies_of(page):
    """The replies and the events of a page, both in its order; an event is its session, its item and what it says."""
    lines, replies, events = page.split("\n"), [], []
    if lines[-1] == "":
        lines.pop()
    for at, line in enumerate(lines):
        head, event = HEAD.fullmatch(line), EVENT.fullmatch(line)
        if head:
            replies.append(Reply(int(head[1]), int(head[2]), head[3], [], relation_of(lines, at)))
        elif event:
            events.append((int(event[1]), int(event[2]), event[3]))
        elif replies:
            replies[-1].lines.append(line)
    return replies, events


def relation_of(lines, at):
    """The relation of the reply that begins on a line, or None where it has none."""
    head = TYPED.fullmatch(lines[at])
    if not head or not head[2]:
        return None
    try:
        return reply_at(lines, at, head)
    except Bad:
        return None
