#!/usr/bin/env python3
"""Systems of stations, written from docs/FORMATS.md apart from the program: what `cosim load` sums up.

    load.py N [--log]    prints the six lines for N stations, and with --log the joined log before them
"""
import pathlib
import re
import sys

END = 100_000_000
WORD = 0xFFFFFFFF
SOURCE = pathlib.Path(__file__).parents[2] / "crates/load_gen/src/program.rt"


def program():
    """The source as a list of places, each an instruction; `li` takes two places, of which the first does nothing."""
    text = re.search(r'b"\\\n(.*?)";', SOURCE.read_text(), re.S).group(1)
    places, labels = [], {}
    for line in text.splitlines():
        label, colon, statement = line.rpartition(":")
        if colon:
            labels[label.strip()] = len(places)
        words = re.findall(r"[-\w]+", statement)
        places += [["skip"], words] if words[0] == "li" else [words]
    return places, labels


REGISTERS = {"x0": 0} | {f"a{i}": 10 + i for i in range(8)} | {f"t{i}": (5 if i < 3 else 25) + i for i in range(7)}


class Host:
    ports = 1

    def __init__(self, hart):
        self.places, self.labels = program()
        self.hart, self.place, self.x, self.ram = hart, 0, [0] * 32, bytearray(65536)
        self.due, self.waiting, self.kept = 0, None, b""

    def put(self, name, value):
        if name != "x0":
            self.x[REGISTERS[name]] = value & WORD

    def got(self, name):
        return self.x[REGISTERS[name]]

    def access(self, out, size, address, value=None):
        if 0x40000000 <= address < 0x40020000:
            out.send(0, ("access", address - 0x40000000, value))
            return False
        place = address - 0x80000000
        if value is None:
            return int.from_bytes(self.ram[place:place + size], "little")
        if address == 0x10000000:
            if value & 255 == 10:
                out.log("con " + self.kept.decode())
                self.kept = b""
            else:
                self.kept += bytes([value & 255])
        elif address == 0x10000004:
            out.log(f"halt {value}")
            self.place = None
        else:
            self.ram[place:place + size] = value.to_bytes(4, "little")[:size]
        return True

    def tick(self, out):
        name, *words = self.places[self.place]
        self.place += 1
        self.due = out.time + 10_000
        if name == "li":
            self.put(words[0], int(words[1], 0))
        elif name == "addi":
            self.put(words[0], self.got(words[1]) + int(words[2]))
        elif name == "slli":
            self.put(words[0], self.got(words[1]) << int(words[2]))
        elif name == "csrrs":
            self.put(words[0], self.hart)
        elif name == "bne":
            if self.got(words[0]) != self.got(words[1]):
                self.place = self.labels[words[2]]
        elif name in ("lw", "sw", "sb"):
            address = self.got(words[2]) + int(words[1])
            value = None if name == "lw" else self.got(words[0])
            answer = self.access(out, 1 if name == "sb" else 4, address, value)
            if answer is False:
                self.due, self.waiting = None, words[0] if name == "lw" else "x0"
            elif name == "lw":
                self.put(words[0], answer)
        if self.place is None:
            self.due = None

    def take(self, out, port, message):
        kind, *rest = message
        if kind == "done":
            self.put(self.waiting, rest[0] or 0)
            self.due = out.time + 10_000
        elif kind == "read":
            address, size = rest
            place = address - 0x80000000
            out.send(0, ("data", bytes(self.ram[place:place + size])))
        elif kind == "write":
            address, data = rest
            place = address - 0x80000000
            self.ram[place:place + len(data)] = data
            out.send(0, ("written",))


class Nic:
    ports, due = 2, None

    def __init__(self):
        self.r, self.queue, self.frame = {}, [], b""
        self.sending = self.receiving = None

    def ring(self, base):
        count = self.r.get(base + 8, 0) // 16
        head, tail = self.r.get(base + 16, 0), self.r.get(base + 24, 0)
        return self.r.get(base, 0) + 16 * head if head < count and tail < count and head != tail else None

    def advance(self, base):
        self.r[base + 16] = (self.r.get(base + 16, 0) + 1) % (self.r[base + 8] // 16)

    def take(self, out, port, message):
        kind, *rest = message
        answers = None
        if port == 1:
            if not (self.r.get(0x100, 0) & 2 and self.r.get(0, 0) & 0x40):
                out.log("drop off")
            elif not (message[1][:6] == b"\xff" * 6 and self.r[0x100] & 0x8000):
                out.log("drop filter")
            elif len(self.queue) == 64:
                out.log("drop fifo")
            else:
                self.queue.append(message[1])
        elif kind == "access":
            offset, value = rest
            if value is None:
                out.send(0, ("done", self.r.get(offset, 0)))
            else:
                self.r[offset] = value
                out.send(0, ("done", None))
        else:
            answers = self.requests.pop(0)
        self.transmit(out, rest if answers == "tx" else None)
        self.receive(out, rest if answers == "rx" else None)

    requests = ()

    def ask(self, out, engine, message):
        self.requests = list(self.requests) + [engine]
        out.send(0, message)

    def transmit(self, out, answer):
        if answer is not None:
            if self.sending == "descriptor":
                self.descriptor = answer[0]
                address, size = int.from_bytes(answer[0][:8], "little"), int.from_bytes(answer[0][8:10], "little")
                self.sending = "data"
                return self.ask(out, "tx", ("read", address, size))
            if self.sending == "data":
                out.send(1, ("frame", answer[0]))
                out.log(f"tx {len(answer[0])}")
                self.sending = "status"
                return self.ask(out, "tx", ("write", self.ring(0x3800) + 12, bytes([self.descriptor[12] | 1])))
            self.advance(0x3800)
            self.sending = None
        if self.sending is None and self.r.get(0x400, 0) & 2 and self.r.get(0, 0) & 0x40 and self.ring(0x3800):
            self.sending = "descriptor"
            self.ask(out, "tx", ("read", self.ring(0x3800), 16))

    def receive(self, out, answer):
        if answer is not None:
            if self.receiving == "descriptor":
                self.buffer = answer[0][:8]
                self.receiving = "data"
                return self.ask(out, "rx", ("write", int.from_bytes(self.buffer, "little"), self.queue[0]))
            if self.receiving == "data":
                self.receiving = "status"
                size = len(self.queue[0]).to_bytes(2, "little")
                return self.ask(out, "rx", ("write", self.ring(0x2800), self.buffer + size + b"\0\0\x03\0\0\0"))
            self.advance(0x2800)
            out.log(f"rx {len(self.queue.pop(0))}")
            self.receiving = None
        if self.receiving is None and self.queue and self.ring(0x2800):
            self.receiving = "descriptor"
            self.ask(out, "rx", ("read", self.ring(0x2800), 16))


class Switch:
    due = None

    def __init__(self, ports):
        self.ports, self.table = ports, {}

    def take(self, out, port, message):
        source = message[1][6:12]
        if self.table.get(source) != port:
            self.table[source] = port
            out.log("learn " + ":".join(f"{byte:02x}" for byte in source) + f" {port}")
        out.log("flood")
        for other in range(self.ports):
            if other != port:
                out.send(other, message)


class Out:
    def __init__(self, system, component, time):
        self.system, self.component, self.time = system, component, time

    def log(self, text):
        self.system.lines.append((self.time, self.component, text))

    def send(self, port, message):
        channel, to, latency = self.system.ways[self.component, port]
        self.system.sent[channel].append(self.time)
        self.system.waiting.append((self.time + latency, to, message))


class System:
    def __init__(self, n):
        self.components = [Host(i) for i in range(n)] + [Nic() for _ in range(n)] + [Switch((n + 1) // 2 + 1), Switch(n // 2 + 1)]
        self.names = [f"h{i}" for i in range(n)] + [f"n{i}" for i in range(n)] + ["s0", "s1"]
        links = [((i, 0), (n + i, 0), 500_000) for i in range(n)]
        links += [((n + i, 1), (2 * n + i % 2, i // 2), 1_000_000) for i in range(n)]
        links += [((2 * n, (n + 1) // 2), (2 * n + 1, n // 2), 1_000_000)]
        self.links, self.ways = links, {}
        for j, (a, b, latency) in enumerate(links):
            self.ways[a], self.ways[b] = (2 * j, b, latency), (2 * j + 1, a, latency)
        self.sent, self.lines, self.waiting = [[] for _ in range(2 * len(links))], [], []

    def run(self):
        while True:
            dues = [c.due for c in self.components if c.due is not None]
            time = min([w[0] for w in self.waiting] + dues, default=END)
            if time >= END:
                return
            now = [w for w in self.waiting if w[0] == time]
            self.waiting = [w for w in self.waiting if w[0] != time]
            for index, component in enumerate(self.components):
                out = Out(self, index, time)
                for _, (_, port), message in sorted((w for w in now if w[1][0] == index), key=lambda w: w[1][1]):
                    component.take(out, port, message)
                if component.due == time:
                    component.tick(out)

    def syncs(self):
        total = 0
        for channel, times in enumerate(self.sent):
            interval, due = self.links[channel // 2][2], 0
            for time in times + [END]:
                last = time if time < END else END - 1
                missed = max(0, (last - due) // interval + 1)
                total, due = total + missed, time + interval
        return total


def main():
    n = int(sys.argv[1])
    system = System(n)
    system.run()
    if "--log" in sys.argv:
        for time, component, text in system.lines:
            print(time, system.names[component], text)
    print(f"load {n}\ncomponents {len(system.components)}\nlinks {len(system.links)}\nlines {len(system.lines)}")
    print(f"syncs {system.syncs()}\nsends {sum(map(len, system.sent))}")


main()
