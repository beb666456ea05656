"""Up to eight clients at once over one session: what they append, or stage and flush, and the replies and checkpoints that go with it."""

from collections import Counter
from random import Random

from asked import Asked
from common import digits

# As many clients as a group has prepares.
CLIENTS = 8


class Requests:
    """A session in which up to eight clients at once ask for their next request, and each has its reply after it."""

    def __init__(self, session: Asked, random: Random, slots: int):
        self.session, self.random, self.slots = session, random, slots
        self.head, self.reached, self.sequence = 0, 0, 1
        self.asked: Counter = Counter()

    def lines(self, word: bytes, bodies: list) -> bytes:
        """A line for each of this many clients."""
        made = []
        for client, body in enumerate(bodies, 1):
            self.asked[client] += 1
            made.append(b"%s %d %d %s\n" % (word, client, self.asked[client], digits(body)))
        return b"".join(made)

    def answers(self, word: bytes, count: int) -> bytes:
        return b"".join(b"%s %d\n" % (word, self.head + number) for number in range(1, count + 1))

    def appended(self, bodies: list) -> float:
        """This many appends, in one piece: the seconds until the last one is answered."""
        return self.session.want(self.lines(b"append", bodies), self.answers(b"appended", len(bodies)))

    def staged(self, bodies: list) -> float:
        """What the next group is to have: the seconds until all is staged."""
        return self.session.want(self.lines(b"stage", bodies), self.answers(b"staged", len(bodies)))

    def flushed(self, count: int) -> float:
        """The seconds of the flush."""
        return self.session.want(b"flush\n", b"flushed %d\n" % count)

    def replied(self, count: int) -> float:
        """The replies to the last requests; and a whole checkpoint where the ring has no slots for eight more: the seconds of both."""
        lines, answers = b"".join(b"reply %d -\n" % (self.head + number) for number in range(1, count + 1)), self.answers(b"replied", count)
        self.head += count
        if self.head + CLIENTS > self.reached + self.slots:
            self.sequence, self.reached = self.sequence + 1, self.head
            lines, answers = lines + b"checkpoint -\nstep\nstep\n", answers + b"begun 1\nworking 1\ndone %d\n" % self.sequence
        return self.session.want(lines, answers)

    def go_round(self, size: int) -> None:
        """Fills each slot once, but for the last one of the ring: the next eight prepares then have their headers in one sector."""
        while self.head < self.slots - 1:
            count = min(CLIENTS, self.slots - 1 - self.head)
            self.appended([self.random.randbytes(size) for _ in range(count)])
            self.replied(count)

    def over(self, session: Asked) -> "Requests":
        """The same, as it stands, in another session over a copy of the file."""
        other = Requests(session, self.random, self.slots)
        other.head, other.reached, other.sequence, other.asked = self.head, self.reached, self.sequence, Counter(self.asked)
        return other
