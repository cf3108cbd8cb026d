"""The part of checks/refused-memory that refuses memory to a server, while a client asks it and is told of alarms."""
import re
import subprocess
import time

import bacnet
import serving

# How many datagrams a server takes, some more than the client's requests and its answers to notifications are.
COUNT = 10
TANK = bacnet.INTEGER_VALUE, 1
# ReadRange of all records of event-log 1.
READ_RANGE, OF_LOG = 26, bytes.fromhex("0c064000011983")
# For how many seconds a client waits for an answer that may not come, and after how many a server hangs.
PATIENCE, HANGS = 0.6, 20


class Client(serving.Client):
    """A client whose requests needn't be answered."""

    def ask(self, make):
        """The answer to a request, or None where none comes in time."""
        invoke, until = self.send_request(make), time.monotonic() + PATIENCE
        while message := self.receive(until):
            if message.invoke == invoke:
                return message
        return None

    def asks(self):
        """What is answered to a read, to writes of an alarm and of its end, and to what asks for alarms and for the log."""
        return [
            self.ask(lambda invoke: bacnet.read_property(invoke, TANK, bacnet.PRESENT_VALUE)),
            self.write(TANK, bacnet.signed(90)),
            self.ask(bacnet.get_event_information),
            self.write(TANK, bacnet.signed(50)),
            self.ask(lambda invoke: bacnet.request(invoke, READ_RANGE, OF_LOG)),
        ]


class Run:
    """A server at which the allocation of a number is refused, and what its client heard."""

    def __init__(self, of, number=0):
        self.of, self.client = of, of.client
        self.client.notes.clear()
        of.journal.write_bytes(of.blank)
        environment = {**of.memory.environment(number), **serving.environment(self.client.server_port)}
        parts = [of.journal.with_name(name) for name in ("served", "errors")]
        with open(parts[0], "wb") as output, open(parts[1], "wb") as errors:
            self.child = subprocess.Popen(of.words, env=environment, stdin=subprocess.DEVNULL, stdout=output, stderr=errors)
        try:
            self.answers = self.client.asks() if self.listens(parts[1]) else []
            self.hangs = not self.ends()
        finally:
            self.child.kill()
            self.child.wait()
        self.status, self.report, self.errors = self.child.returncode, *(part.read_bytes() for part in parts)
        self.counted, self.refused = of.memory.counted()
        self.written = sum(1 for it in self.answers if it and (it.kind, it.number) == ("simple-ack", bacnet.WRITE_PROPERTY))

    def listens(self, errors):
        until = time.monotonic() + HANGS
        while self.child.poll() is None and time.monotonic() < until:
            if b"listening on" in errors.read_bytes():
                return True
            time.sleep(0.001)
        return False

    def ends(self):
        """Whether the server ends, as it is sent more datagrams than it takes. What still comes is received."""
        until = time.monotonic() + HANGS
        while self.child.poll() is None and time.monotonic() < until:
            self.client.send_anything(bacnet.who_is())
            self.client.receive(time.monotonic() + 0.01)
        return self.child.poll() is not None

    def end(self):
        """The status, and the texts but for the one that it listens."""
        return self.status, b"".join(it for it in self.errors.splitlines(keepends=True) if not it.startswith(b"listening on "))


class Serving:
    """Servers of one site, at each of which another allocation is refused."""

    def __init__(self, told, memory, program, folder):
        self.told, self.memory, self.program, self.client = told, memory, program, Client()
        self.site, self.journal = serving.blank(
            program, folder, serving.device(), serving.of_class(7), serving.told_at(self.client.port, 7, True), serving.tank(1, 7),
            ("[[log]]", {"instance": 1, "name": "Log", "size": 4, "classes": [7]}),
        )
        self.blank, self.late = self.journal.read_bytes(), []
        self.listening = f"listening on {serving.HOST}:{self.client.server_port}".encode()
        self.words = [program, "serve", str(self.site), str(self.journal), str(COUNT)]

    def play(self, no_memory):
        self.good, ends = Run(self), {}
        kinds = [(it.kind, it.number) if it else None for it in self.good.answers]
        self.told.want(self.good.end() == (0, b"") and None not in kinds, f"serve: the good run ended with {self.good.end()}, answers {kinds}")
        numbers = self.told.numbers(self.good.counted)
        for number in numbers:
            run = Run(self, number)
            ends[run.end()] = ends.get(run.end(), 0) + 1
            self.told.refused += run.refused
            self.look(number, run, no_memory)
        self.client.socket.close()
        said = ", ".join(f"{count} with {end[0]} {end[1].decode().strip()}".strip() for end, count in sorted(ends.items()))
        print(f"serve: {len(numbers)} of {self.good.counted} refused; ended {said}; it answered late at {self.late}", flush=True)

    def look(self, number, run, no_memory):
        name, want = f"serve, allocation {number}", self.told.want
        want(not run.hangs, f"{name}: it hangs, and printed {run.errors!r}")
        want(run.end() in [(0, b""), no_memory], f"{name}: it ended with {run.end()}, and printed {run.report!r}")
        said = [it for it in run.errors.splitlines() if it.startswith(b"listening on ")]
        want(said in [[], [self.listening]], f"{name}: it said {said}")
        for answer, good in zip(run.answers, self.good.answers):
            same = answer is None or (answer.kind, answer.number) == (good.kind, good.number)
            want(same, f"{name}: a request was answered with {answer}, and not as {good}")
        if run.answers and run.answers[0]:
            same = run.answers[0]._replace(invoke=0) == self.good.answers[0]._replace(invoke=0)
            want(same, f"{name}: the value was answered with {run.answers[0]}, and not as {self.good.answers[0]}")
        missed = sum(it is None for it in run.answers)
        # Where no thread could be started for it, the committer comes behind the receiver.
        is_late = run.status == 0 and missed == len(self.good.answers)
        self.late += [number] * is_late
        want(missed <= 1 or is_late or run.status != 0, f"{name}: {missed} requests weren't answered")
        self.told.journals += 1
        events = serving.events_in(self.program, self.site, self.journal)
        want(events >= run.written, f"{name}: the journal opens at event {events}, and {run.written} were answered")
        if run.status == 0:
            found = re.fullmatch(rb"served ([0-9]+) ([0-9]+) ([0-9]+) ([0-9]+)\n", run.report)
            good = found and (int(found[1]), int(found[2]), int(found[3])) == (COUNT, events, events) and int(found[4]) <= 1
            want(good, f"{name}: it printed {run.report!r}, and the journal opens at event {events}")
