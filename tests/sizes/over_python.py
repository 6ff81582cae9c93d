"""over_python.py POLICY CAPACITY SHARDS: carries out the lines of `foyer-sim` over a `luffapricot.Cache`, and prints the same,
but that of what left it says only the values, in their order as text. It knows no lines for phantoms, uses, bulk evictions
and fetches. A handle is a number alone: whatever a script looks up it has to drop at once.

over_python.py SOCKET does so for each connection to a socket that it makes, whose first line has these words: a process that
has imported all is forked in less time than Python takes to begin.

A key's hash in the cache is the key: how the extension mixes hashes is turned round here. The time is clock.c's."""
import ctypes
import os
import re
import signal
import socket
import sys

from luffapricot import Cache, Error

MASK = 2**64 - 1
FACTORS = {32: 0x45D9F3B, 64: 0xD6E8FEB86659FD93}
MOST_DIGITS = 20
NUMBERS = {"insert": (2, 3, 4), "get": (1,), "contains": (1,), "remove": (1,), "drop": (1,), "clear": (0,), "resize": (1,), "at": (1,), "high": (2,)}


class Key:
    """A key whose hash the extension mixes to the key itself."""

    def __init__(self, number):
        self.number = number
        bits = 32 if number < 2**32 else 64
        for _ in range(2):
            number = (number ^ number >> bits // 2) * pow(FACTORS[bits], -1, 2**bits) % 2**bits
        number ^= number >> bits // 2
        self.hash = number - 2**64 if number >> 63 else number

    def __hash__(self):
        return self.hash

    def __eq__(self, other):
        return self.number == other.number


class Value:
    """A value that says when nobody has it any more."""

    def __init__(self, key, number):
        self.key, self.number = key, number

    def __del__(self):
        if self.key is not None:
            left.append(f"{self.key}={self.number}")


left, handles = [], []
clock = ctypes.CDLL(None).set_moment
clock.argtypes = [ctypes.c_uint64]


def handle(text=""):
    handles.append(True)
    return f"h{len(handles) - 1}{text}"


class Sim:
    def __init__(self, policy, capacity, shards):
        self.cache, self.now = Cache(int(capacity), policy, int(shards)), 0

    def insert(self, key, number, weight=1, expires=None):
        value, life = Value(key, number), None if expires is None else (expires - self.now) / 10**9
        try:
            self.cache.insert(Key(key), value, weight=weight, ttl=life)
        except Error as error:
            value.key = None
            return re.search(r"\((F\d+)\)", str(error))[1]
        return handle()

    def get(self, key):
        value = self.cache.get(Key(key))
        return "none" if value is None else handle(f" {value.number}")

    def contains(self, key):
        return "yes" if Key(key) in self.cache else "no"

    def remove(self, key):
        value = self.cache.pop(Key(key), None)
        return "none" if value is None else handle(f" {value.number}")

    def drop(self, number):
        is_held = number < len(handles) and handles[number]
        if is_held:
            handles[number] = False
        return "ok" if is_held else "not held"

    def clear(self):
        self.cache.clear()
        return "ok"

    def resize(self, capacity):
        self.cache.resize(capacity)
        return "ok"

    def high(self, num, den):
        return "ok" if num == den else "F17"  # its LRU has no other share

    def at(self, now):
        self.now = now
        clock(now)
        return "ok"

    def reply(self, words):
        name, numbers = words[0], words[1:]
        is_well = all(re.fullmatch(f"[0-9]{{1,{MOST_DIGITS}}}", it) and int(it) <= MASK for it in numbers)
        if not is_well or len(numbers) not in NUMBERS.get(name, ()):
            return "bad line"
        return getattr(self, name)(*map(int, numbers))


def words_of_connection(path):
    """Waits for connections to a socket, and for each returns its words in a process whose streams are the connection's. How
    that process ends is written behind what it wrote, unless it ends well."""
    signal.signal(signal.SIGCHLD, signal.SIG_IGN)  # nobody asks how those end that wait for scripts
    server = socket.socket(socket.AF_UNIX)
    server.bind(f"{path}.new")
    server.listen()
    os.rename(f"{path}.new", path)
    while True:
        connection, _ = server.accept()
        if os.fork() == 0:
            signal.signal(signal.SIGCHLD, signal.SIG_DFL)
            ran = os.fork()
            if ran == 0:
                for it in range(3):
                    os.dup2(connection.fileno(), it)
                return sys.stdin.readline().split()
            status = os.waitstatus_to_exitcode(os.waitpid(ran, 0)[1])
            connection.sendall(f"ended with {status}\n".encode() if status else b"")
            os._exit(0)
        connection.close()


def main():
    sim = Sim(*(words_of_connection(sys.argv[1]) if sys.argv[2:] == [] else sys.argv[1:]))
    for line in sys.stdin.readlines():  # a socket has no room for all replies while lines are sent
        words = [it for it in line.rstrip("\n").split(" ") if it]
        if not words:
            continue
        left.clear()
        reply, stats = sim.reply(words), sim.cache.stats()
        sys.stdout.write(f"{reply} | {', '.join(sorted(left)) or '-'} | usage {stats.usage} entries {stats.entries}\n")


main()
