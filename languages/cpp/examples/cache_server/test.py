#!/usr/bin/env python3
"""Tests the cache server: test.py SERVER [NAME..], with the program's path, and the tests to run (all by default).

Each test starts a server on a free port, talks to it by sockets, compares what comes back byte for byte, and stops it by SIGTERM: it
has to end with status 0 and without a word on standard error, which is where sanitizers tell what they find. SHARE=0.1 in the
environment makes the tests of many calls shorter, and leaves out what is said of memory: for servers that a sanitizer slows down.
"""

import os
import random
import re
import select
import shutil
import signal
import socket
import subprocess
import sys
import tempfile
import threading
import time

SHARE = float(os.environ.get("SHARE", "1"))
PATIENCE = 60


def many(number):
    """Returns how often something is done that is done so often by a fast server."""
    return max(1, int(number * SHARE))


def request(*words):
    """Returns a request of these words."""
    parts = [word if isinstance(word, bytes) else str(word).encode() for word in words]
    return b"*%d\r\n" % len(parts) + b"".join(b"$%d\r\n%s\r\n" % (len(part), part) for part in parts)


def text(value):
    """Returns the reply that is this text, or no text."""
    return b"$-1\r\n" if value is None else b"$%d\r\n%s\r\n" % (len(value), value)


def number(value):
    return b":%d\r\n" % value


class Client:
    """A connection to a server."""

    def __init__(self, port):
        self.socket = socket.create_connection(("127.0.0.1", port), PATIENCE)
        self.socket.setsockopt(socket.IPPROTO_TCP, socket.TCP_NODELAY, 1)

    def __enter__(self):
        return self

    def __exit__(self, *_):
        self.socket.close()

    def send(self, data):
        self.socket.sendall(data)

    def receive(self, size):
        """Returns so many bytes, or fewer if the connection ends before."""
        parts = []
        while size > 0 and (part := self.socket.recv(min(size, 1 << 20))):
            parts.append(part)
            size -= len(part)
        return b"".join(parts)

    def expect(self, reply, of=b""):
        came = self.receive(len(reply))
        if came != reply:
            at = next((i for i, (a, b) in enumerate(zip(came, reply)) if a != b), min(len(came), len(reply)))
            raise AssertionError(f"{of[:200]!r}: at byte {at} {came[at:at + 100]!r}, not {reply[at:at + 100]!r}")

    def ask(self, data, reply):
        """Sends bytes, by a thread if they are many, and compares what comes back."""
        sender = threading.Thread(target=self.send, args=(data,)) if len(data) > 10000 else None
        sender.start() if sender else self.send(data)
        self.expect(reply, data)
        if sender:
            sender.join()

    def expect_end(self):
        came = self.socket.recv(100)
        assert came == b"", f"{came!r} in place of the end"

    def line(self):
        """Returns a reply of one line."""
        line = b""
        while not line.endswith(b"\r\n"):
            part = self.socket.recv(1)
            assert part, f"an end after {line!r}"
            line += part
        return line[:-2]

    def figures(self):
        """Returns what INFO tells."""
        self.send(request("INFO"))
        told = self.receive(int(self.line()[1:]) + 2).decode()
        return {name: value for name, value in re.findall(r"(\w+):(.*)\r", told)}

    def figure(self, name):
        return int(self.figures()[name])


class Server:
    """A server that runs as long as the context."""

    path = ""

    def __init__(self, *words):
        self.words = [str(word) for word in words]

    def __enter__(self):
        self.errors = tempfile.TemporaryFile("w+")
        self.process = subprocess.Popen([Server.path, "--port", "0", *self.words], stdout=subprocess.PIPE, stderr=self.errors, text=True)
        line = self.process.stdout.readline()
        told = re.fullmatch(r"cache_server: ready on 127\.0\.0\.1:(\d+)\n", line)
        assert told, f"it begins with {line!r}"
        self.port = int(told.group(1))
        return self

    def __exit__(self, kind, *_):
        self.process.send_signal(signal.SIGTERM)
        try:
            out, _ = self.process.communicate(timeout=PATIENCE)
        except subprocess.TimeoutExpired:
            self.process.kill()
            raise AssertionError("it doesn't stop") from None
        with self.errors:
            self.errors.seek(0)
            errors = self.errors.read(3000)
        if kind is None:
            assert (self.process.returncode, out, errors) == (0, "", ""), f"it ends with {self.process.returncode}, {out!r}, {errors}"
        elif errors:
            print(errors, file=sys.stderr)

    def connect(self):
        return Client(self.port)

    def memory(self):
        """Returns how many bytes of memory the process has."""
        with open(f"/proc/{self.process.pid}/statm") as file:
            return int(file.read().split()[1]) * os.sysconf("SC_PAGESIZE")


def at_once(count, body):
    """Calls a function with 0 .. count - 1, each in a thread of its own, and raises what one of them raised."""
    raised = []

    def guarded(i):
        try:
            body(i)
        except BaseException as what:
            raised.append(what)

    threads = [threading.Thread(target=guarded, args=(i,)) for i in range(count)]
    for thread in threads:
        thread.start()
    for thread in threads:
        thread.join()
    if raised:
        raise raised[0]


def comes_to(what, wanted):
    """Waits until a function's answer is the wanted one."""
    ends = time.monotonic() + PATIENCE
    while (found := what()) != wanted:
        assert time.monotonic() < ends, f"{found!r}, and never {wanted!r}"
        time.sleep(0.01)


# ---- replies

NOT_A_NUMBER = b"-ERR value is not an integer or out of range\r\n"
NO_TIME = b"-ERR invalid expire time in 'set' command\r\n"
SYNTAX = b"-ERR syntax error\r\n"
OK, NONE = b"+OK\r\n", text(None)


def wrong_count(name):
    return b"-ERR wrong number of arguments for '%s' command\r\n" % name


REPLIES = [
    (request("PING"), b"+PONG\r\n"),
    (request("ping", "a b"), text(b"a b")),
    (request("PING", "a", "b"), wrong_count(b"PING")),
    (b"PING\r\n", b"+PONG\r\n"),
    (b" ping \t x\n", text(b"x")),
    (b"\r\n\n*0\r\nPING\r\n", b"+PONG\r\n"),
    (request("GET", "a"), NONE),
    (request("SET", "a", "1"), OK),
    (request("GET", "a"), text(b"1")),
    (request("get", "a"), text(b"1")),
    (request("GET", "A"), NONE),
    (request("GET"), wrong_count(b"GET")),
    (request("GET", "a", "b"), wrong_count(b"GET")),
    (request("SET", "a"), wrong_count(b"SET")),
    (request("SET", "", ""), OK),
    (request("GET", ""), text(b"")),
    (request("SET", b"\0\r\n\xff", bytes(range(256))), OK),
    (request("GET", b"\0\r\n\xff"), text(bytes(range(256)))),
    (request("MGET", "a", "b", "", "a"), b"*4\r\n" + text(b"1") + NONE + text(b"") + text(b"1")),
    (request("EXISTS", "a", "b", "a"), number(2)),
    (request("DBSIZE"), number(3)),
    (request("DBSIZE", "x"), wrong_count(b"DBSIZE")),
    (request("DEL", "", "b", b"\0\r\n\xff", ""), number(2)),
    (request("DEL", ""), number(0)),
    (request("DBSIZE"), number(1)),
    # SET with conditions and times
    (request("SET", "a", "2", "NX"), NONE),
    (request("SET", "a", "3", "XX"), OK),
    (request("SET", "b", "4", "xx"), NONE),
    (request("SET", "b", "5", "nx", "ex", "100"), OK),
    (request("MGET", "a", "b"), b"*2\r\n" + text(b"3") + text(b"5")),
    (request("SET", "a", "6", "PX", "100000", "XX"), OK),
    (request("SET", "a", "7", "NX", "XX"), SYNTAX),
    (request("SET", "a", "7", "EX"), SYNTAX),
    (request("SET", "a", "7", "EX", "1", "PX", "1"), SYNTAX),
    (request("SET", "a", "7", "KEEPTTL"), SYNTAX),
    (request("SET", "a", "7", "EX", "0"), NO_TIME),
    (request("SET", "a", "7", "EX", "-1"), NO_TIME),
    (request("SET", "a", "7", "EX", "9223372036854775807"), NO_TIME),
    (request("SET", "a", "7", "EX", "9223372036854775808"), NOT_A_NUMBER),
    (request("SET", "a", "7", "PX", "1.5"), NOT_A_NUMBER),
    (request("SET", "a", "7", "PX", ""), NOT_A_NUMBER),
    (request("GET", "a"), text(b"6")),
    # INCR
    (request("INCR", "a"), number(7)),
    (request("INCR", "n"), number(1)),
    (request("INCR", "n"), number(2)),
    (request("SET", "n", "-1"), OK),
    (request("INCR", "n"), number(0)),
    (request("GET", "n"), text(b"0")),
    (request("SET", "n", "9223372036854775806"), OK),
    (request("INCR", "n"), number(2**63 - 1)),
    (request("INCR", "n"), b"-ERR increment or decrement would overflow\r\n"),
    (request("GET", "n"), text(b"9223372036854775807")),
    (request("SET", "n", "-9223372036854775808"), OK),
    (request("INCR", "n"), number(1 - 2**63)),
    *[pair for word in (b"", b"x", b"1x", b"1.0", b" 1", b"1 ", b"+1", b"01", b"-", b"-0", b"-01", b"9223372036854775808")
      for pair in ((request("SET", "n", word), OK), (request("INCR", "n"), NOT_A_NUMBER), (request("GET", "n"), text(word)))],
    (request("INCR"), wrong_count(b"INCR")),
    # what redis-cli and redis-benchmark ask for, and what nobody knows
    (request("COMMAND"), b"*0\r\n"),
    (request("COMMAND", "DOCS"), b"*0\r\n"),
    (request("CONFIG", "GET", "save"), b"*2\r\n" + text(b"save") + text(b"")),
    (request("CONFIG", "GET", "appendonly"), b"*2\r\n" + text(b"appendonly") + text(b"no")),
    (request("CONFIG", "GET", "x"), b"*0\r\n"),
    (request("CONFIG", "SET", "x", "y"), b"-ERR only CONFIG GET and one name are known\r\n"),
    (request("LPUSH", "a", "b"), b"-ERR unknown command 'LPUSH'\r\n"),
    (request(b"x\r\n+OK\x80"), b"-ERR unknown command 'x??+OK?'\r\n"),
    (request("y" * 100), b"-ERR unknown command '" + b"y" * 64 + b"'\r\n"),
    (request(""), b"-ERR unknown command ''\r\n"),
    (request("GE"), b"-ERR unknown command 'GE'\r\n"),
    (request("QUIT"), OK),
]


def replies():
    """Each reply, one after the other."""
    with Server() as server, server.connect() as client:
        for asked, reply in REPLIES:
            client.ask(asked, reply)
        client.expect_end()


ALL_ASKED = b"".join(asked for asked, _ in REPLIES)
ALL_REPLIES = b"".join(reply for _, reply in REPLIES)


def pipelines():
    """The same in one piece; and many requests, of which the client reads replies meanwhile, or shuts its side down."""
    with Server() as server:
        with server.connect() as client:
            client.ask(ALL_ASKED, ALL_REPLIES)
            client.expect_end()
        count = many(10000)
        asked = b"".join(request("INCR", "count") + request("SET", i, i) + request("GET", i) for i in range(count))
        reply = b"".join(number(i + 1) + OK + text(b"%d" % i) for i in range(count))
        with server.connect() as client:
            client.ask(asked, reply)
        with server.connect() as client:
            client.send(request("PING") * 100 + request("PING")[:-3])
            client.socket.shutdown(socket.SHUT_WR)
            client.expect(b"+PONG\r\n" * 100)
            client.expect_end()


    big = b"x" * 3500000
    with Server("--request", "4m") as server:
        for count in (1, 2, 3, 5, 8):
            with server.connect() as client:
                client.send(request("SET", "big", big) + request("GET", "big") * count)
                client.socket.shutdown(socket.SHUT_WR)
                time.sleep(0.05)
                client.expect(OK + text(big) * count)
                client.expect_end()


def split_reads():
    """The same byte for byte, and in two parts that are cut at each place."""
    with Server() as server:
        with server.connect() as client:
            reader = threading.Thread(target=client.expect, args=(ALL_REPLIES,))
            reader.start()
            for i in range(len(ALL_ASKED)):
                client.send(ALL_ASKED[i:i + 1])
            reader.join()
            client.expect_end()
        asked = request("SET", "a", b"\r\n$1") + b"PING\r\n" + request("GET", "a")
        reply = OK + b"+PONG\r\n" + text(b"\r\n$1")
        with server.connect() as client:
            for cut in range(1, len(asked)):
                client.send(asked[:cut])
                time.sleep(0.001)
                client.ask(asked[cut:], reply)


# ---- broken requests

BROKEN = [
    (b"*x\r\n", b"invalid multibulk length"),
    (b"*\r\n", b"invalid multibulk length"),
    (b"*-1\r\n", b"invalid multibulk length"),
    (b"*+1\r\n", b"invalid multibulk length"),
    (b"* 1\r\n", b"invalid multibulk length"),
    (b"*1 \r\n", b"invalid multibulk length"),
    (b"*1\n$4\nPING\n" + b" " * 40, b"invalid multibulk length"),
    (b"*99999999999999999999\r\n", b"invalid multibulk length"),
    (b"*1000000000\r\n", b"invalid multibulk length"),
    (b"*" + b"0" * 100, b"invalid multibulk length"),
    (b"*1\r\nPING\r\n", b"expected '$'"),
    (b"*1\r\n:4\r\nPING\r\n", b"expected '$'"),
    (b"*1\r\n*1\r\n", b"expected '$'"),
    (b"*1\r\n$\r\n", b"invalid bulk length"),
    (b"*1\r\n$-1\r\n", b"invalid bulk length"),
    (b"*1\r\n$4x\r\n", b"invalid bulk length"),
    (b"*1\r\n$18446744073709551616\r\n", b"invalid bulk length"),
    (b"*1\r\n$18446744073709551615\r\n", b"invalid bulk length"),
    (b"*1\r\n$1000000000\r\n", b"invalid bulk length"),
    (b"*1\r\n$" + b"1" * 100, b"invalid bulk length"),
    (b"*1\r\n$4\r\nPINGPING", b"a word isn't as long as was said"),
    (b"*1\r\n$4\r\nPING\n", b"a word isn't as long as was said"),
    (b"*2\r\n$4\r\nPIN\r\n$1\r\na\r\n", b"a word isn't as long as was said"),
    (b"P" * 70000, b"too big inline request"),
    (b"P" * 70000 + b"\n", b"too big inline request"),
]


def broken_requests():
    """Each is refused; what came before it is answered, also where much comes behind it; and no key is lost."""
    before = request("SET", "a", "1") + request("INCR", "count") + request("GET", "big")
    with Server() as server:
        with server.connect() as client:
            client.ask(request("SET", "big", b"x" * 500000), OK)
        for i, (data, why) in enumerate(BROKEN):
            for behind in (b"", request("DEL", "a", "big") + os.urandom(300000)):
                with server.connect() as client:
                    sender = threading.Thread(target=lambda: client.send(before + data + behind))
                    sender.start()
                    client.expect(OK)
                    client.line()
                    client.expect(text(b"x" * 500000) + b"-ERR Protocol error: " + why + b"\r\n", data)
                    client.expect_end()
                    sender.join()
        with server.connect() as client:
            client.ask(request("MGET", "a", "count"), b"*2\r\n" + text(b"1") + text(b"%d" % (2 * len(BROKEN))))
        for data in (b"POST / HTTP/1.1\r\nHost: x\r\n\r\nDEL a\r\n", b"Host: x\r\nDEL a\r\n"):
            with server.connect() as client:
                client.ask(data, b"-ERR this is no web server\r\n")
                client.expect_end()
        with server.connect() as client:
            client.ask(request("EXISTS", "a"), number(1))


def noise():
    """Bytes by chance, and requests with a byte changed: the server goes on, and keeps its keys."""
    chance = random.Random(1)
    with Server("--threads", 2) as server:
        with server.connect() as client:
            client.ask(request("SET", "kept", "1"), OK)
        for i in range(many(400)):
            data = bytearray(chance.choice([b"*", b"*1\r\n$", b""]) + chance.randbytes(chance.randrange(200)))
            if i % 2:
                data = bytearray(b"".join(asked for asked, _ in chance.sample(REPLIES[:-1], 3)))
                data[chance.randrange(len(data))] = chance.randrange(256)
            with server.connect() as client:
                client.send(bytes(data))
                client.socket.shutdown(socket.SHUT_WR)
                while client.socket.recv(100000):
                    pass
        with server.connect() as client:
            client.ask(request("GET", "kept"), text(b"1"))
            comes_to(lambda: client.figure("connected_clients"), 1)


# ---- limits

def limits():
    """A request and a reply of the most bytes, and of one more; too many connections; a value for which there is no memory."""
    with Server("--request", "1k", "--reply", 2048, "--connections", 3, "--memory", "10k") as server:
        with server.connect() as client:
            size = 1024 - len(request("SET", "a", b"x" * 900)) + 900
            client.ask(request("SET", "a", b"x" * size), OK)
            client.ask(request("MGET", *"aa"), b"*2\r\n" + text(b"x" * size) * 2)
            client.ask(request("MGET", *"aaa"), b"-ERR the reply is too long\r\n")
            client.ask(request("PING"), b"+PONG\r\n")
            client.ask(request("SET", "a", b"x" * (size + 1)), b"-ERR Protocol error: the request is too long\r\n")
            client.expect_end()
        with server.connect() as one:
            comes_to(lambda: one.figure("connected_clients"), 1)
            two, three = server.connect(), server.connect()
            comes_to(lambda: one.figure("connected_clients"), 3)
            with server.connect() as client:
                client.expect(b"-ERR max number of clients reached\r\n")
                client.expect_end()
            for client in (one, two, three):
                client.ask(request("GET", "a"), text(b"x" * size))
            two.socket.close()
            three.socket.close()
    with Server("--memory", "10k") as server, server.connect() as client:
        refusal = b"-OOM command not allowed when used memory > 'maxmemory'\r\n"
        client.ask(request("SET", "a", "1"), OK)
        client.ask(request("SET", "b", b"x" * 20000), refusal)
        client.ask(request("SET", "a", b"x" * 20000), refusal)
        client.ask(request("MGET", "a", "b"), b"*2\r\n" + text(b"1") + NONE)


def back_pressure():
    """A client that doesn't read is given no memory without a bound; others are served meanwhile; it gets all its replies."""
    for size, count in ((500000, many(200)), (3500000, many(40))):
        with Server("--threads", 1, "--request", "4m") as server, server.connect() as client, server.connect() as other:
            client.ask(request("SET", "a", b"x" * size), OK)
            before = server.memory()
            sender = threading.Thread(target=client.send, args=(request("GET", "a") * count,))
            sender.start()
            for i in range(20):
                other.ask(request("INCR", "n"), number(i + 1))
                time.sleep(0.005)
            grown = server.memory() - before
            for _ in range(count):
                client.expect(text(b"x" * size))
                grown = max(grown, server.memory() - before)
            assert SHARE < 1 or grown < 30 << 20, f"{grown} bytes for what isn't read"
            sender.join()
            client.ask(request("PING"), b"+PONG\r\n")


# ---- time and memory

def expiry():
    """Items expire, by the reader's clock and by the walk; a write in their place counts as a new one."""
    with Server("--sweep", 3600000) as server, server.connect() as client:
        sets = [("a", "PX", "1000"), ("b", "PX", "1000"), ("c", "EX", "100")]
        client.ask(b"".join(request("SET", key, "5", unit, time) for key, unit, time in sets), OK * 3)
        client.ask(request("INCR", "a") + request("MGET", *"abc"), number(6) + b"*3\r\n" + text(b"6") + text(b"5") * 2)
        client.ask(request("SET", "b", "7"), OK)
        time.sleep(1.05)
        asked = request("DBSIZE") + request("MGET", *"abc") + request("DBSIZE")
        client.ask(asked, number(3) + b"*3\r\n" + NONE + text(b"7") + text(b"5") + number(2))
        client.ask(request("SET", "a", "8", "PX", "1"), OK)
        time.sleep(0.01)
        client.ask(request("SET", "a", "9", "XX") + request("DEL", "a") + request("INCR", "a"), NONE + number(0) + number(1))
        client.ask(request("SET", "a", "8", "PX", "1"), OK)
        time.sleep(0.01)
        client.ask(request("SET", "a", "9", "NX") + request("GET", "a"), OK + text(b"9"))
        assert client.figure("expired_keys") == 3
    with Server("--sweep", 20, "--hash-bits", 7) as server, server.connect() as client:
        count = many(2000)
        asked = b"".join(request("SET", f"s{i}", i, "PX", "30") + request("SET", f"l{i}", i, "EX", "1000") for i in range(count))
        client.ask(asked, OK * 2 * count)
        comes_to(lambda: client.figures()["db0"], f"keys={count},expires={count}")
        assert client.figure("expired_keys") == count
        client.ask(request("EXISTS", *(f"l{i}" for i in range(count))), number(count))


def written_meanwhile():
    """A reader that finds an item expired doesn't remove what another connection has put in its place by then."""
    with Server("--hash-bits", 5, "--sweep", 3600000) as server, server.connect() as writer:
        writer.ask(b"".join(request("SET", i, i) for i in range(2000)), OK * 2000)
        readers = [server.connect() for _ in range(3)]
        keys = range(20)
        for _ in range(many(250)):
            writer.ask(b"".join(request("SET", f"a{i}", "1", "PX", "1") for i in keys), OK * len(keys))
            time.sleep(0.002)
            for reader in readers:
                reader.send(b"".join(request("EXISTS", f"a{i}") for i in keys))
            writer.ask(b"".join(request("SET", f"a{i}", "2") for i in keys), OK * len(keys))
            for reader in readers:
                assert all(reader.line() in (b":0", b":1") for _ in keys)
            writer.ask(request("EXISTS", *(f"a{i}" for i in keys)), number(len(keys)))
        for reader in readers:
            reader.socket.close()


def eviction():
    """The bound holds; what is used stays; each key is there or was evicted."""
    most, hot, count = 256 << 10, 50, max(6000, many(20000))
    with Server("--memory", most, "--threads", 2) as server, server.connect() as client, server.connect() as other:
        client.ask(b"".join(request("SET", f"hot{i}", "x" * 100) for i in range(hot)), OK * hot)
        for begin in range(0, count, 500):
            part = range(begin, begin + 500)
            client.ask(b"".join(request("SET", i, "x" * 50) for i in part[:250]), OK * 250)
            other.ask(b"".join(request("SET", i, "x" * 50) for i in part[250:]), OK * 250)
            other.send(request("EXISTS", *(f"hot{i}" for i in range(hot))))
            other.line()
            used = client.figure("used_memory")
            assert used <= most, f"{used} bytes of {most}"
            time.sleep(0.005)
        told = client.figures()
        keys = int(re.match(r"keys=(\d+),", told["db0"]).group(1))
        assert keys + int(told["evicted_keys"]) == count + hot, f"{told}"
        assert int(told["used_memory"]) > most * 0.9 and keys > 1000, f"{told}"
        client.ask(request("DBSIZE"), number(keys))
        client.send(request("EXISTS", *(f"hot{i}" for i in range(hot))))
        stayed = int(client.line()[1:])
        assert stayed >= hot * 0.9, f"{stayed} of {hot} that were used stayed, and {keys} of {count} others"


def overwritten():
    """What is overwritten and removed is freed."""
    value, count = b"x" * 20000, many(10000)
    with Server("--threads", 2) as server, server.connect() as client, server.connect() as other:
        before = server.memory()
        for _ in range(count // 100):
            for one in (client, other):
                one.ask((request("SET", "a", value) + request("SET", "b", value) + request("DEL", "b")) * 25, (OK + OK + number(1)) * 25)
        grown = server.memory() - before
        assert SHARE < 1 or grown < 40 << 20, f"{grown} bytes after {count * 40000} were overwritten"


# ---- many at once

def increments():
    """By many connections at once each sum is answered once, at one hot key, and with equal hashes."""
    for bits in (63, 0):
        with Server("--hash-bits", bits, "--threads", 4) as server:
            count, threads = many(1000), 16
            sums = [[] for _ in range(threads)]

            def body(i):
                with server.connect() as client:
                    for begin in range(0, count, 50):
                        size = min(50, count - begin)
                        client.send((request("INCR", "hot") + request("INCR", f"own{i}")) * size)
                        for k in range(size):
                            sums[i].append(int(client.line()[1:]))
                            client.expect(number(begin + k + 1))

            at_once(threads, body)
            assert sorted(sum(sums, [])) == list(range(1, threads * count + 1))
            assert all(one == sorted(one) for one in sums)


class Model:
    """What a store answers that has no times and no bounds."""

    def __init__(self):
        self.map = {}

    def answer(self, words):
        name, keys = words[0], words[1:]
        there = self.map.get(keys[0])
        if name == "GET":
            return text(there)
        if name == "MGET":
            return b"*%d\r\n" % len(keys) + b"".join(text(self.map.get(key)) for key in keys)
        if name == "EXISTS":
            return number(sum(key in self.map for key in keys))
        if name == "DEL":
            return number(sum(self.map.pop(key, None) is not None for key in keys))
        if name == "INCR":
            if not re.fullmatch(rb"\d{1,9}", there or b"0"):
                return NOT_A_NUMBER
            self.map[keys[0]] = b"%d" % (int(there or b"0") + 1)
            return number(int(self.map[keys[0]]))
        if "NX" in words and there is not None or "XX" in words and there is None:
            return NONE
        self.map[keys[0]] = words[2]
        return OK


def some_words(chance, keys):
    """Returns a request by chance."""
    name = chance.choice(["GET", "GET", "MGET", "EXISTS", "DEL", "INCR", "SET", "SET", "SET"])
    if name in ("MGET", "EXISTS", "DEL"):
        return [name, *chance.choices(keys, k=chance.randrange(1, 6))]
    if name != "SET":
        return [name, chance.choice(keys)]
    value = chance.choice([b"%d" % chance.randrange(1000), chance.randbytes(chance.randrange(300))])
    return [name, chance.choice(keys), value, *chance.choice([[], [], ["NX"], ["XX"], ["EX", "1000"]])]


def models():
    """Requests by chance, by several connections on keys of their own, beside a dictionary: also where all hashes are equal."""
    for bits in (0, 2, 63):
        with Server("--hash-bits", bits, "--threads", 4) as server:

            def body(i):
                chance, model = random.Random(10 * bits + i), Model()
                keys = [f"{i}:{k}" for k in range(30)]
                with server.connect() as client:
                    for _ in range(many(40)):
                        batch = [some_words(chance, keys) for _ in range(chance.randrange(1, 100))]
                        reply = b"".join(model.answer(words) for words in batch)
                        client.ask(b"".join(request(*words) for words in batch), reply)
                    client.ask(request("EXISTS", *keys), number(len(model.map)))
                    left.append(len(model.map))

            left = []
            at_once(6, body)
            with server.connect() as client:
                client.ask(request("DBSIZE"), number(sum(left)))


def crowd():
    """200 connections at once, and as many that come and go."""
    with Server("--threads", 4) as server:
        clients = [server.connect() for _ in range(200)]
        for turn in range(5):
            for i, client in enumerate(clients):
                client.send(request("SET", i, turn * 1000 + i) + request("INCR", "all"))
            for i, client in enumerate(clients):
                client.expect(OK)
                client.line()
            for i, client in enumerate(clients):
                client.ask(request("GET", 199 - i), text(b"%d" % (turn * 1000 + 199 - i)))
        assert clients[0].figure("connected_clients") == 200
        clients[0].ask(request("GET", "all"), text(b"1000"))
        for client in clients[1:]:
            client.socket.close()
        comes_to(lambda: clients[0].figure("connected_clients"), 1)
        for i in range(200):
            with server.connect() as client:
                client.send(request("SET", "gone", b"x" * 1000)[:10 + i])
        comes_to(lambda: clients[0].figure("connected_clients"), 1)
        clients[0].ask(request("EXISTS", "gone"), number(0))
        clients[0].socket.close()


def churn():
    """Overwriting, removing, expiring and evicting at once: each value that is read is one that was written at its key. A write may be
    refused where all that it would evict goes just then."""
    refusal = b"-OOM command not allowed when used memory > 'maxmemory'"
    with Server("--threads", 4, "--memory", "30k", "--sweep", 10, "--hash-bits", 9) as server:

        def body(i):
            chance = random.Random(i)
            refused = 0
            with server.connect() as client:
                for _ in range(many(30)):
                    keys = [b"k%d" % chance.randrange(2000) for _ in range(100)]
                    writes = [chance.choice([request("SET", key, key * chance.randrange(1, 60)), request("DEL", key),
                                             request("SET", key, key, "PX", chance.randrange(1, 30))]) for key in keys]
                    client.send(b"".join(writes) + b"".join(request("GET", key) for key in keys))
                    for _ in keys:
                        line = client.line()
                        assert line in (b"+OK", b":0", b":1", refusal), f"{line!r}"
                        refused += line == refusal
                    for key in keys:
                        size = int(client.line()[1:])
                        value = client.receive(size + 2)[:-2] if size >= 0 else b""
                        assert value == key * (len(value) // len(key)), f"{value!r} at {key!r}"
            assert refused <= 5 * many(30), f"{refused} writes refused"

        at_once(8, body)
        with server.connect() as client:
            told = client.figures()
            past = int(told["used_memory"]) - int(told["maxmemory"])
            assert past <= 4 * 500 and int(told["evicted_keys"]) > 0, f"{told}"


# ---- begin and end

def stops():
    """It stops beside writers and with replies that nobody takes; it can begin anew at its port; wrong words are named."""
    with Server() as server:
        port = server.port
        stuck = server.connect()
        stuck.ask(request("SET", "a", b"x" * 1000000), OK)
        stuck.send(request("GET", "a") * 50)
        clients = [server.connect() for _ in range(20)]
        for client in clients:
            client.send(request("INCR", "n") * 2000)
        select.select([clients[0].socket], [], [], PATIENCE)
    for client in [stuck, *clients]:
        client.socket.close()
    with Server("--port", port) as server:
        again = subprocess.run([Server.path, "--port", str(port)], capture_output=True, text=True)
        assert again.returncode == 1 and re.fullmatch("cache_server: listen: .*\n", again.stderr), f"{again}"
        server.process.send_signal(signal.SIGINT)
        server.process.wait(PATIENCE)
    memory = ["--memory", "1x"], ["--memory", "99999999999999999g"]
    for words in (["--port"], ["--port", "65536"], ["--threads", "0"], *memory, ["--what", "1"], ["x"]):
        told = subprocess.run([Server.path, *words], capture_output=True, text=True)
        assert told.returncode == 2 and told.stderr.startswith(f"cache_server: {words[0]}: ") and not told.stdout, f"{told}"
    told = subprocess.run([Server.path, "--help"], capture_output=True, text=True)
    assert told.returncode == 0 and told.stdout.startswith("usage: cache_server ") and not told.stderr


def redis_tools():
    """Redis' own client and benchmark."""
    missing = [tool for tool in ("redis-cli", "redis-benchmark") if not shutil.which(tool)]
    if missing:
        return f"left out, since it isn't here: {' '.join(missing)}"
    with Server() as server:
        cli = ["redis-cli", "-p", str(server.port)]
        for words, told in ((["SET", "a", "b c", "EX", "100"], "OK"), (["GET", "a"], "b c"), (["INCR", "n"], "1"),
                            (["MGET", "a", "x"], "b c\n"),
                            (["DBSIZE"], "2"), (["DEL", "a"], "1"), (["NONE"], "ERR unknown command 'NONE'\n")):
            ran = subprocess.run([*cli, *words], capture_output=True, text=True, timeout=PATIENCE)
            assert ran.stdout == told + "\n", f"{words}: {ran}"
        ran = subprocess.run(cli, input="PING\nSET q 1\nQUIT\n", capture_output=True, text=True, timeout=PATIENCE)
        assert ran.stdout.startswith("PONG\nOK\n") and ran.returncode == 0, f"{ran}"
        for more in ([], ["-P", "16", "--threads", "2"]):
            words = ["redis-benchmark", "-p", str(server.port), "-n", str(many(5000)), "-r", "1000", "-t", "ping,set,get,incr"]
            ran = subprocess.run([*words, "--csv", *more], capture_output=True, text=True, timeout=PATIENCE)
            names = re.findall(r'^"([A-Z_]+)",', ran.stdout, re.MULTILINE)
            assert names == ["PING_INLINE", "PING_MBULK", "SET", "GET", "INCR"] and not ran.stderr, f"{ran}"
    return None


TESTS = [replies, pipelines, split_reads, broken_requests, noise, limits, back_pressure, expiry, written_meanwhile, eviction, overwritten,
         increments, models, crowd, churn, stops, redis_tools]


def main():
    Server.path, names = sys.argv[1], sys.argv[2:]
    wrong = 0
    for test in TESTS:
        if names and test.__name__ not in names:
            continue
        begun = time.monotonic()
        try:
            told = test() or "well"
        except Exception as what:
            wrong += 1
            told = f"WRONG: {type(what).__name__}: {what}"
        print(f"{test.__name__}: {told} ({time.monotonic() - begun:.1f} s)", flush=True)
    return wrong == 0


if __name__ == "__main__":
    sys.exit(0 if main() else 1)
