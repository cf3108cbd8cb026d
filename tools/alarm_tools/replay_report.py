"""The report of an archive or a journal that is whole: its events, played once more to its own text."""
import pathlib
import tempfile

from . import archive_search, replay
from .replay_session import Session
from .replay_source import Source


class Told:
    """What a session says of each event, as the lines of a report. `script` gets each line that was played, by its number."""

    def __init__(self, program, path):
        self.program, self.source, self.script = program, Source(path, None, archive_search.Search(program).find), {}
        self.waiting, self.events, self.last = [], 0, None

    def lines(self):
        with tempfile.TemporaryDirectory(prefix="alarm-report-", dir=replay.in_memory()) as folder:
            site, kept = pathlib.Path(folder, "site.toml"), pathlib.Path(folder, "journal")
            site.write_bytes(self.source.text)
            replay.make_blank(kept, replay.need_of(self.program, site, "the text"))
            session = Session(self.program, site, kept)
            try:
                yield "open 0"
                yield from self.played(session)
                session.end()
            finally:
                session.close()
            yield f"end {len(self.script)} {self.events}"

    def played(self, session):
        side = replay.Side(session, self.hear)
        for event in self.source.more():
            self.last = event.record.moment
            for line in side.lines(event.record):
                number = len(self.script) + 1
                self.script[number] = event.record.moment, line.split(" ")
                side.put(line, number)
            if number % replay.TOGETHER == 0:
                side.settle(self.last)
            yield from self.said()
        if self.last is not None:
            side.settle(self.last)
        yield from self.said()

    def hear(self, _, block, number):
        """Keeps what was said of a line of the archive; a question of the tool has no number."""
        if number is None:
            return
        self.waiting.append(" ".join([str(number), block.word, *block.rest]))
        self.waiting += [f"{number} change {' '.join(it)}" for it in block.changes] + [f"{number} send {peer} {datagram.hex()}" for peer, datagram in block.sends]
        if block.word == "entered":
            self.events = int(block.rest[0])

    def said(self):
        told, self.waiting = self.waiting, []
        return told
