"""Random sessions held with comedi_serve, whose records `comedi replay` plays to the same bytes.

ZENDROUZ_SEEDS says how many are held: 20.
"""
import os
import random
import unittest
from typing import Any, Callable, List, Set, Tuple

from needed import SECONDS, needs
from test_session import Recorded, levels_of
from zendrouz import Board, ComediError, Command, Flag, Session, Signals, Subdevice, replay, table


class Random:
    """A client that asks at random, and keeps what it learned in other ways than a replay answers it."""

    def __init__(self, seed: int) -> None:
        self.chance = random.Random(seed)
        # By the number of a turn: codes that were read, and how many samples there had to be.
        self.codes: List[Tuple[int, List[int]]] = []
        self.counts: List[Tuple[int, int]] = []
        self.started: Set[int] = set()

    def board(self) -> Board:
        chance, made = self.chance, []
        for kind in ("ai", "ao", "di"):
            bits = 1 if kind == "di" else chance.choice([4, 8, 12])
            munge = chance.choice(["none", "offset", "left 2"])
            fifo = (4, chance.choice([300, 900])) if kind == "ai" and chance.random() < 0.4 else None
            made.append(Subdevice(
                kind, 2, bits=bits, ranges=[(0, 2 ** bits - 1, 2)], munge=munge, lines=1, list=2, tick=100,
                sources="now|ext|int timer|ext now|timer count none|count|ext", scan=(200, 5000), convert=(100, 1000),
                buffer=chance.choice([2, 4, 16]), fifo=fifo))
        return Board("random", made)

    def signals(self) -> Signals:
        chance = self.chance
        waves = {(sub, chan): table(chance.choice([100, 700, 1000]), [chance.randrange(16) for _ in range(8)])
                 for sub in (0, 2) for chan in (0, 1)}
        return Signals(40_000, waves, edges={0: sorted(chance.sample(range(40_000), 25))})

    def command(self, sub: int) -> Command:
        chance = self.chance
        start = chance.choice(["now:0", "now:0", "now:0", "int:0", "ext:0"]) if sub != 1 else "int:0"
        scan = chance.choice(["timer:300", "timer:400", "timer:1000", "timer:2000", "ext:0", "timer:50"])
        stop = chance.choice(["none:0", "none:0", "count:3", "count:10", "count:30", "ext:0"])
        entries = chance.choice(["0/0/ground", "0/0/ground,1/0/ground", "1/0/ground"])
        convert = chance.choice(["now:0", "timer:100"])
        count = entries.count(",") + 1
        flags = chance.choice([0, 0, 0, int(Flag.RAWDATA)])
        return Command.parse("%d %d %s %s %s count:%d %s %s" % (sub, flags, start, scan, convert, count, stop, entries))

    def reading(self, session: Session, sub: int, file: int) -> List[Callable[[], Any]]:
        """What a client may ask of an input."""
        count = self.chance.randrange(6)
        return [lambda: session.command(self.command(sub), file), lambda: session.read(count, sub, file),
                lambda: session.read(9, sub, file), lambda: session.read(9, sub, file),
                lambda: self.read_codes(session, sub, file), lambda: self.read_codes(session, sub, file),
                lambda: self.read_mapped(session, sub, file), lambda: self.read_mapped(session, sub, file)]

    def writing(self, session: Session, sub: int, file: int) -> List[Callable[[], Any]]:
        """What a client may ask of an output."""
        chance = self.chance
        words = [chance.randrange(16) for _ in range(chance.randrange(1, 9))]
        return [lambda: session.command(self.command(sub), file), lambda: session.write(words, sub, file),
                lambda: session.write(words, sub, file), lambda: session.write(words, sub, file),
                lambda: session.fill(words, sub, file), lambda: session.mark(len(words), sub, file),
                lambda: session.trigger(sub, 0, file), lambda: session.trigger(sub, 0, file)]

    def asking(self, session: Session, sub: int, file: int) -> List[Callable[[], Any]]:
        """What a client may ask of any subdevice."""
        chance = self.chance
        count, words = chance.randrange(6), [chance.randrange(16) for _ in range(3)]
        return [lambda: session.poll(count % 3, sub, file), lambda: self.info(session, sub, file),
                lambda: self.info(session, sub, file), lambda: session.contents(sub, file),
                lambda: session.insn_read(sub, count % 3, 2, file),
                lambda: session.insn_write(sub, 0, words, file), lambda: session.insn_bits(sub, count, count, file),
                lambda: session.command_test(self.command(sub)), lambda: session.trigger(sub, 0, file)]

    def step(self, session: Session) -> None:
        """Asks one thing, mostly one that makes sense."""
        chance = self.chance
        is_output, file = chance.random() < 0.4, 0 if chance.random() < 0.95 else 1
        sub = chance.randrange(4) if chance.random() < 0.05 else 1 if is_output else chance.choice([0, 0, 2])
        calls = (self.writing if is_output else self.reading)(session, sub, file)
        if chance.random() < 0.3:
            calls = self.asking(session, sub, file)
        if chance.random() < 0.05:
            calls = [lambda: session.cancel(sub, file), lambda: session.lock(sub, file), lambda: session.open(1),
                     lambda: session.unlock(sub, file), lambda: session.close(1)]
        if chance.random() < 0.7 and (sub not in self.started or sub in session.ends):
            calls = [lambda: self.start(session, sub, file)]
        chance.choice(calls)()

    def start(self, session: Session, sub: int, file: int) -> None:
        session.command(self.command(sub), file)
        self.started.add(sub)
        if sub == 1:
            session.write([self.chance.randrange(16) for _ in range(self.chance.randrange(1, 9))], sub, file)
            session.trigger(sub, 0, file)

    def read_mapped(self, session: Session, sub: int, file: int) -> None:
        chance = self.chance
        mapped = session.map(chance.randrange(9), sub, file)
        session.peek(0, 9, sub, file)
        session.look(chance.randrange(mapped + 1), sub, file)
        session.release(mapped if chance.random() < 0.8 else chance.randrange(mapped + 1), sub, file)

    def read_codes(self, session: Session, sub: int, file: int) -> None:
        at = len(session.turns)
        self.codes.append((at, session.read_codes(self.chance.randrange(9), sub, file)))

    def info(self, session: Session, sub: int, file: int) -> None:
        at = len(session.turns)
        info = session.info(sub, file)
        if info.end is None:
            self.counts.append((at, info.written - info.read))

    def play(self) -> Session:
        with Session(self.board(), self.signals()) as session:
            session.open()
            while session.now < 38_000:
                try:
                    self.step(session)
                except ComediError:
                    pass
                session.advance(self.chance.choice([0, 0, 0, 100, 300, 777]))
            session.now = 40_000
            for sub in range(3):
                self.finish(session, sub)
        return session

    def finish(self, session: Session, sub: int) -> None:
        """Asks for the end of a command at the horizon."""
        for _ in range(3):
            try:
                if sub == 1:
                    session.write([1], sub)
                else:
                    session.read(9, sub)
            except ComediError:
                pass


@needs("comedi")
@needs("comedi_serve")
class RandomSessions(Recorded):
    seeds = int(os.environ.get("ZENDROUZ_SEEDS", "20"))
    seconds = SECONDS + seeds

    def test_records_replay_byte_for_byte(self) -> None:
        for seed in range(self.seeds):
            with self.subTest(seed=seed):
                client = Random(seed)
                session = client.play()
                self.check_record(session)
                played = replay(session.record)
                for at, codes in client.codes:
                    if not played[at].samples.is_raw:
                        self.assertEqual(levels_of(played[at].samples), codes, played[at])
                for at, count in client.counts:
                    self.assertEqual(played[at].values, [count], played[at])


if __name__ == "__main__":
    unittest.main()
