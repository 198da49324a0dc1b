"""What comes to tests/hostile over a socket: each limit of a request at its number and one past it, and hostile clients beside good ones."""
import json
import re
import resource
import socket
import struct
import threading
import time

from hostile_shared import NEW_TICKET, WIRE, counts, deep, head, length, many, quoted, same, serve

# ---- the limits of a request, over a socket
# what is sent, and what is answered; `ticket` stands for the next ticket
REQUESTS = [
    ("a method that the path does not have", head("GET /tickets HTTP/1.1"), serve.error(405, "method", "POST")),
    ("two lengths of 1", head("POST /tickets HTTP/1.1", length(1), length(1)) + b"x", serve.error(400, "length")),
    ("a coding", head("POST /tickets HTTP/1.1", "Transfer-Encoding: chunked"), serve.error(400, "coding")),
    ("a body of 65,536 bytes", head("POST /tickets HTTP/1.1", length(65536)) + b" " * 65536, "ticket"),
    ("a body of 65,537 bytes", head("POST /tickets HTTP/1.1", length(65537)) + b" " * 65537, serve.error(413, "size")),
    ("a body of 65,536 bytes, of which one lacks", head("POST /tickets HTTP/1.1", length(65536)) + b" " * 65535, serve.error(400, "cut")),
    ("64 fields", head("POST /tickets HTTP/1.1", *many(64, "X-#: #").split("\n")[:-1]), "ticket"),
    ("65 fields", head("POST /tickets HTTP/1.1", *many(65, "X-#: #").split("\n")[:-1]), serve.error(431, "head-size")),
    ("16,384 bytes without a whole head", b"a" * 16384, serve.error(431, "head-size")),
    ("a head of 16,384 bytes in 64 fields",
     head("POST /tickets HTTP/1.1", *["a: " + "b" * 250] * 63, "a: " + "b" * (16384 - 26 - 63 * 255 - 5)), "ticket"),
    ("a head of 16,385 bytes in 64 fields",
     head("POST /tickets HTTP/1.1", *["a: " + "b" * 250] * 63, "a: " + "b" * (16385 - 26 - 63 * 255 - 5)), serve.error(431, "head-size")),
    ("a path of 16,384 bytes of head", head("POST /tickets?" + "a" * (16384 - 27) + " HTTP/1.1"), "ticket"),
    ("a path of 16,385 bytes of head", head("POST /tickets?" + "a" * (16385 - 27) + " HTTP/1.1"), serve.error(431, "head-size")),
    ("a name of 16,384 bytes of head", head("POST /tickets HTTP/1.1", "a" * (16384 - 30) + ":b"), "ticket"),
    ("the line nonsense and an empty one", b"nonsense\r\n\r\n", serve.error(400, "head")),
    ("the line nonsense, then the end", b"nonsense\r\n", serve.error(400, "cut")),
    ("a ticket with a zero in front", head("POST /call/f/01 HTTP/1.1"), serve.error(404, "ticket")),
    ("a value of 4,096 bytes", serve.call("f", 1, quoted(4094)), serve.value(quoted(4094))),
    ("a value of 4,097 bytes", serve.call("f", 1, quoted(4095)), serve.error(400, "value")),
    ("a value 32 deep", serve.call("f", 2, deep(32)), serve.value(deep(32))),
    ("a value 33 deep", serve.call("f", 2, deep(33)), serve.error(400, "value")),
    ("a value that is as deep as a body is long", serve.call("f", 2, deep(32768)), serve.error(400, "value")),
    ("a value among 65,532 blanks", serve.call("f", 3, " " * 32766 + "7" + " " * 32769), serve.value("7")),
    ("the least number", serve.call("f", 4, "-9223372036854775808"), serve.value("-9223372036854775808")),
    ("a number below it", serve.call("f", 4, "-9223372036854775809"), serve.error(400, "value")),
    ("a ticket that was not issued", serve.reply(4294967295), serve.error(404, "ticket")),
    ("a ticket past the last one", serve.reply(4294967296), serve.error(404, "ticket")),
    ("a function's name of 16,000 bytes", head(f"POST /call/{'f' * 16000}/1 HTTP/1.1"), serve.error(404, "function")),
    ("a ticket of 16,000 digits", head(f"POST /call/f/{'9' * 16000} HTTP/1.1"), serve.error(404, "ticket")),
    ("a length of 16,000 digits", head("POST /tickets HTTP/1.1", length("0" * 16000)), serve.error(400, "length")),
]


def wire():
    """Each limit of a request, at its number and one past it; tickets are those that requests at a limit asked for."""
    service, statuses, tickets = serve.Service(WIRE, len(REQUESTS)), [], 0
    for name, sent, wanted in REQUESTS:
        if wanted == "ticket":
            tickets += 1
            wanted = serve.ticket(tickets)
        same(f"over a socket: {name}", service.ask(sent), wanted)
        statuses.append(serve.status_of(wanted))
    serve.served(counts, "over a socket", service, statuses)


# ---- hostile clients
class Hostile:
    """A client that sends its pieces, one after another with a pause between them, and then takes what comes until the end."""

    def __init__(self, port, name, pieces, pause, wanted, line, leaves=False):
        self.name, self.pieces, self.pause, self.wanted, self.line, self.leaves = name, pieces, pause, wanted, line, leaves
        self.port, self.got, self.took, self.sent = port, b"", 0.0, 0.0
        self.thread = threading.Thread(target=self.work)
        self.thread.start()

    def work(self):
        began = time.monotonic()
        with serve.connected(self.port) as link:
            try:
                for piece in self.pieces:
                    link.sendall(piece)
                    if self.pause and serve.select.select([link], [], [], self.pause)[0]:
                        break
                self.sent = time.monotonic() - began
                if self.leaves:
                    link.setsockopt(socket.SOL_SOCKET, socket.SO_LINGER, struct.pack("ii", 1, 0))
                    return
                self.got = serve.everything(link)
            except OSError as fault:
                self.got += f" [{type(fault).__name__}]".encode()
        self.took = time.monotonic() - began

    def end(self):
        self.thread.join()
        if not self.leaves:
            # one that is given up may see its connection broken in place of an end
            got = re.sub(rb" \[ConnectionResetError\]| \[BrokenPipeError\]", b"", self.got)
            if self.wanted and not got and self.sent > serve.PATIENCE - 1:
                # the machine was so busy that it sent too late
                self.wanted, self.line = b"", "fault"
            same(f"hostile client: {self.name}", got, self.wanted)
            least = 0 if self.wanted else serve.PATIENCE - 2
            # (a patience that began anew with each byte would be over after 29 seconds)
            counts.true(f"hostile client: {self.name}: its time", least <= self.took < 2 * serve.PATIENCE, f"{self.took:.1f} s")


PREFACE = (
    b"PRI * HTTP/2.0\r\n\r\nSM\r\n\r\n\x00\x00\x12\x04\x00\x00\x00\x00\x00"
    b"\x00\x03\x00\x00\x00\x64\x00\x04\x02\x00\x00\x00\x00\x02\x00\x00\x00\x00"
)
HELLO = (
    b"\x16\x03\x01\x02\x00\x01\x00\x01\xfc\x03\x03" + bytes(range(33, 65)) + b"\x20" + bytes(range(65, 97))
    + b"\x00\x02\x13\x01\x01\x00" + b"\x01\xb1" + bytes(433)
)
# the client, what it sends, the pause between its pieces in seconds, what it gets, and the status in the service's line
CLIENTS = [
    ("nothing", [], 0, b"", "fault"),
    ("a byte a second", [b"POST /tickets HTTP/1.1\r\n"[at : at + 1] for at in range(20)], 1, b"", "fault"),
    ("a field a second", [b"POST /tickets HTTP/1.1\r\n"] + [b"A: b\r\n"] * 20, 1, b"", "fault"),
    ("100 fields and no end", [b"POST /tickets HTTP/1.1\r\n"] + [b"A: b\r\n"] * 100, 0.05, b"", "fault"),
    ("100 fields and then the end", [b"POST /tickets HTTP/1.1\r\n"] + [b"A: b\r\n"] * 100 + [b"\r\n"], 0.02, serve.error(431, "head-size"), 431),
    ("a line without an end", [b"a" * 1024] * 20, 0.05, serve.error(431, "head-size"), 431),
    ("a megabyte without an end", [b"a" * 1_000_000], 0, serve.error(431, "head-size"), 431),
    ("a body shorter than it said", [head("POST /tickets HTTP/1.1", length(10)) + b"123456789"], 0, b"", "fault"),
    ("a body longer than it said", [head("POST /call/f/0 HTTP/1.1", length(1)) + b"7" + b"x" * 50_000], 0, serve.error(404, "ticket"), 404),
    ("a body of which no byte comes", [head("POST /tickets HTTP/1.1", length(65536))], 0, b"", "fault"),
    ("a length past the largest", [head("POST /tickets HTTP/1.1", length("9" * 19))], 0, serve.error(413, "size"), 413),
    ("a preface of HTTP/2", [PREFACE], 0, serve.error(400, "head"), 400),
    ("a hello of TLS", [HELLO], 0, b"", "fault"),
    ("chunks without an end", [head("POST /call/f/1 HTTP/1.1", "Transfer-Encoding: chunked")] + [b"1\r\n7\r\n"] * 100, 0.05,
     serve.error(400, "coding"), 400),
    ("zeros", [bytes(1000)], 0, b"", "fault"),
    ("requests one after another", [serve.reply("x") * 100], 0, serve.error(404, "ticket"), 404),
]
GOOD, EACH = 16, 12


class Good:
    """A client that asks for tickets and makes calls, each over a connection of its own."""

    def __init__(self, service, number):
        self.service, self.number, self.faults, self.answers = service, number, [], 0
        self.thread = threading.Thread(target=self.work)
        self.thread.start()

    def asked(self, sent):
        """What it gets."""
        got = self.service.ask(sent, ends=False)
        self.answers += 1
        return got

    def same(self, got, wanted):
        if got != wanted:
            self.faults.append(f"{serve.short(got)}, not {serve.short(wanted)}")

    def ticket_and_call(self, argument):
        got = self.asked(NEW_TICKET)
        issued = json.loads(got.split(b"\r\n\r\n", 1)[1])["ticket"]
        self.same(got, serve.ticket(issued))
        self.same(self.asked(serve.call("f", issued, argument)), serve.value(argument))

    def work(self):
        try:
            for at in range(EACH):
                self.ticket_and_call(f"[{self.number},{at}]")
                time.sleep(0.6)
        except (OSError, ValueError, KeyError, IndexError) as fault:
            self.faults.append(repr(fault))


def clients():
    """Sixteen hostile clients at once, and one more that breaks off in mid-head, beside sixteen good ones: each has its answer."""
    service = serve.Service(WIRE, len(CLIENTS) + 1 + GOOD * 2 * EACH)
    hostile = [Hostile(service.port, *it) for it in CLIENTS]
    hostile.append(Hostile(service.port, "gone", [NEW_TICKET[:20]], 0.3, None, "fault", leaves=True))
    good = [Good(service, number) for number in range(GOOD)]
    for it in good:
        it.thread.join()
    for it in hostile:
        it.end()
    counts.say("good clients beside hostile ones", "; ".join([one for it in good for one in it.faults][:3]))
    same("good clients: how often", sum(it.answers for it in good), GOOD * 2 * EACH)
    status, text, said = service.end()
    same("hostile clients: its status and standard error", (status, said), (0, b""))
    found = [line.split()[2].decode() for line in text.split(b"== tables\n")[0].splitlines()]
    same("hostile clients: its lines", sorted(found), sorted([str(it.line) for it in hostile] + ["200"] * (GOOD * 2 * EACH)))
    # whoever is held up by a hostile one is answered only after that is given up; the first fault is of the one that breaks off
    given_up = [at for at, it in enumerate(found) if it == "fault"][1:]
    before = found[: min(given_up, default=0)].count("200")
    counts.true("good clients are answered before the first hostile one is given up", before >= GOOD, f"{before} are")


# ---- as many clients as there may be
HELD = 960


def crowd():
    """As many connections as are held at once, which send nothing, and one more: that one waits until one of them is given up."""
    most = resource.getrlimit(resource.RLIMIT_NOFILE)
    if most[1] != resource.RLIM_INFINITY and most[1] < 2 * HELD:
        print("a process may have too few files: the crowd is left out")
        return
    resource.setrlimit(resource.RLIMIT_NOFILE, (2 * HELD, most[1]))
    service, idle = serve.Service(WIRE, HELD + 2), []
    try:
        idle += [serve.connected(service.port) for _ in range(HELD - 1)]
        same("a crowd: one beside 959", service.ask(NEW_TICKET), serve.ticket(1))
        idle += [serve.connected(service.port)]
        same("a crowd: one beside 960", service.ask(NEW_TICKET), serve.ticket(2))
        status, text, said = service.end()
    finally:
        for it in idle:
            it.close()
        resource.setrlimit(resource.RLIMIT_NOFILE, most)
    same("a crowd: its status and standard error", (status, said), (0, b""))
    found = [line.split()[2] for line in text.split(b"== tables\n")[0].splitlines()]
    same("a crowd: how often it answers, and gives up", (found.count(b"200"), found.count(b"fault"), len(found)), (2, HELD, HELD + 2))
    same("a crowd: the first one waits for nobody, and the second one does", [found[0], found[1]], [b"200", b"fault"])
