"""The product as it is handed out: a shared object with C calls, and the program `survey`.
Lent arrays stand against a forbidden page, so that reading or writing past an end is a crash and not luck."""

import ctypes
import mmap
import os
import select
import subprocess
import time
from array import array

import document
from document import Reply
from draw import as_array
from tables import descriptor_of, numbers_most, segments_in, window_of

PAGE = mmap.PAGESIZE
WAIT_SECONDS = 20
ARRAYS_MOST = 4  # lent to one call


class CReply(ctypes.Structure):
    _fields_ = [(name, ctypes.c_int64) for name in Reply._fields]


NUMBER, ARRAY, SIZE = ctypes.c_int64, ctypes.c_void_p, ctypes.c_size_t
DESCRIPTOR, WINDOW = [NUMBER] * 6, [NUMBER] * 4
SIGNATURES = {
    "kalinosz_cell": (NUMBER, [NUMBER] * 7),
    "kalinosz_words": (NUMBER, [NUMBER]),
    "kalinosz_meets": (NUMBER, [NUMBER] * 8),
    "kalinosz_scan": (CReply, [ARRAY, SIZE] + DESCRIPTOR + WINDOW + [ARRAY, SIZE]),
    "kalinosz_build": (CReply, [ARRAY, SIZE] + DESCRIPTOR + [ARRAY, SIZE]),
    "kalinosz_query": (CReply, [ARRAY, SIZE] + WINDOW + [ARRAY, SIZE]),
    "kalinosz_query_many": (CReply, [ARRAY, SIZE] * 4),
}


class Room:
    """Memory with a forbidden page on each side. Beside the array, where it leaves room, stand cells nobody may change."""

    BYTES = 1 << 24
    BESIDE = array("i", [0x5A5A5A5A] * 16).tobytes()

    def __init__(self):
        self.memory = mmap.mmap(-1, self.BYTES + 2 * PAGE)
        start = ctypes.addressof(ctypes.c_char.from_buffer(self.memory))
        self.first, self.end = start + PAGE, start + PAGE + self.BYTES
        protect = ctypes.CDLL(None, use_errno=True).mprotect
        protect.argtypes = [ctypes.c_void_p, ctypes.c_size_t, ctypes.c_int]
        for forbidden in (start, self.end):
            if protect(forbidden, PAGE, 0) != 0:
                raise OSError(ctypes.get_errno(), "mprotect")

    def lend(self, cells, at_end):
        self.cells, self.bytes = cells, len(cells) * cells.itemsize
        self.address = self.end - self.bytes if at_end else self.first
        self.beside = self.address - len(self.BESIDE) if at_end else self.first + self.bytes
        ctypes.memmove(self.address, cells.tobytes(), self.bytes)
        ctypes.memmove(self.beside, self.BESIDE, len(self.BESIDE))
        return self.address, len(cells)

    def now(self):
        cells = self.cells[:0]
        cells.frombytes(ctypes.string_at(self.address, self.bytes))
        return cells

    def beside_kept(self):
        return ctypes.string_at(self.beside, len(self.BESIDE)) == self.BESIDE


class Library:
    """The C calls. Each gives the reply and every lent cell afterwards."""

    def __init__(self, path):
        library = ctypes.CDLL(os.path.abspath(path))
        for name, (result, arguments) in SIGNATURES.items():
            call = getattr(library, name)
            call.restype, call.argtypes = result, arguments
            setattr(self, name, call)
        self.rooms = [Room() for _ in range(ARRAYS_MOST)]
        self.at_end = False

    def lent(self, call, arguments, *parts):
        """Calls with plain numbers and with lent arrays, which are named, by turns against the page before and the page behind."""
        self.at_end = not self.at_end
        rooms = dict(zip((part for part in parts if isinstance(part, str)), self.rooms))
        given = []
        for part in parts:
            given += rooms[part].lend(as_array(part, arguments[part]), self.at_end) if part in rooms else [part]
        reply = call(*given)
        after = {"reply": Reply(*(getattr(reply, name) for name in Reply._fields))}
        for name, room in rooms.items():
            after[name] = room.now()
            after["beside " + name] = room.beside_kept()
        return after

    def cell(self, arguments):
        return {"result": self.kalinosz_cell(*arguments.values())}

    def words(self, arguments):
        return {"result": self.kalinosz_words(*arguments.values())}

    def meets(self, arguments):
        return {"result": self.kalinosz_meets(*arguments.values())}

    def scan(self, arguments):
        return self.lent(self.kalinosz_scan, arguments, "table", *descriptor_of(arguments), *window_of(arguments), "numbers")

    def build(self, arguments):
        return self.lent(self.kalinosz_build, arguments, "table", *descriptor_of(arguments), "index")

    def query(self, arguments):
        return self.lent(self.kalinosz_query, arguments, "index", *window_of(arguments), "numbers")

    def query_many(self, arguments):
        return self.lent(self.kalinosz_query_many, arguments, "index", "windows", "counts", "numbers")

    def one_by_one(self, arguments):
        """The windows of a slice by single queries, each lent the cells after the numbers of those before: the replies and the cells."""
        windows, n = document.windows_in(arguments["windows"]), numbers_most(arguments["index"])
        cells, replies, used = arguments["numbers"] + [0] * n * len(windows), [], 0
        for window in windows:
            asked = self.query({"index": arguments["index"], **window._asdict(), "numbers": cells[used : used + n]})
            cells[used : used + n] = asked["numbers"]
            used += asked["reply"].count
            replies.append(asked["reply"])
        return replies, cells

    def joined(self, arguments):
        """What the windows give in one call is what they give one by one."""
        many, (replies, cells) = self.query_many(arguments), self.one_by_one(arguments)
        counts, numbers = arguments["counts"], arguments["numbers"]
        reply = joined_reply(replies, len(numbers))
        if reply.number == 0:
            each = [one.count for one in replies]
            counts, numbers = each + counts[len(each) :], cells[: len(numbers)]
        expected, got = (reply, counts, numbers), (many["reply"], list(many["counts"]), list(many["numbers"]))
        return {"promise": "kept" if got == expected else f"one by one they give {expected}, in one call {got}"}

    def demands(self, arguments):
        """The product's own words, asked by the product, judged by Meeting."""
        n = arguments["n"]
        built = self.build({**arguments, "index": [0] * document.words_for(n)})
        if built["reply"].number != 0:
            return {"promise": f"the builder answers {built['reply'].number}"}
        asked = self.query({**arguments, "index": built["index"], "numbers": [0] * n})
        if asked["reply"].number != 0:
            return {"promise": f"the query answers {asked['reply'].number}"}
        window, numbers = window_of(arguments), list(asked["numbers"])
        broken = document.broken_promise(segments_in(arguments), document.first_number(arguments["kind"], arguments["lower"]), window, asked["reply"], numbers)
        return {"promise": broken or "kept"}


def joined_reply(replies, cells):
    """The first refusal in the order of many windows that a single query gives, and which window's it is; 7 is judged of all together."""
    answers = [reply.number for reply in replies]
    for number in document.MANY_ORDER:
        if number in answers:
            return Reply(number, 0, 0, answers.index(number))
    count, visits = sum(reply.count for reply in replies), sum(reply.visits for reply in replies)
    return Reply(7, count, 0, 0) if count > cells else Reply(0, count, visits, 0)


class Program:
    """The program, fed whole or in pieces. What it writes to standard error is a difference: no input may upset it."""

    def __init__(self, path):
        self.path = os.path.abspath(path)
        if not os.access(self.path, os.X_OK):
            raise FileNotFoundError(f"no program at {self.path}")

    def start(self):
        pipe = subprocess.PIPE
        return subprocess.Popen([self.path], stdin=pipe, stdout=pipe, stderr=pipe, bufsize=0)

    def program(self, arguments):
        process = self.start()
        try:
            output, errors = process.communicate(arguments["text"], timeout=WAIT_SECONDS)
        except subprocess.TimeoutExpired:
            process.kill()
            return {"output": process.communicate()[0], "errors": b"", "ended": "not in time"}
        return {"output": output, "errors": errors, "ended": how_ended(process)}

    def pipe(self, arguments):
        ways = {"line by line": self.line_by_line, "byte by byte": self.byte_by_byte, "output closed": self.output_closed}
        return ways[arguments["way"]](arguments["text"])

    def line_by_line(self, text):
        """Each answer is awaited before the next line is written: the program may hold nothing back."""
        process, output = self.start(), b""
        *whole_lines, rest = text.split(b"\n")
        for line, answer in zip(whole_lines, document.answers(text)):
            feed(process, line + b"\n")
            read = read_bytes(process, len(answer))
            output += read
            if len(read) < len(answer):
                return {**finish(process, output), "ended": f"holding back the answer to {line}"}
        feed(process, rest)
        return finish(process, output)

    def byte_by_byte(self, text):
        process = self.start()
        for at in range(len(text)):
            feed(process, text[at : at + 1])
        return finish(process, b"")

    def output_closed(self, text):
        """Nobody reads: the program is to end, without a word."""
        process = self.start()
        process.stdout.close()
        feed(process, text)
        process.stdin.close()
        errors = process.stderr.read()
        process.wait(WAIT_SECONDS)
        process.stderr.close()
        return {"output": b"", "errors": errors, "ended": "normally"}


def how_ended(process):
    return "normally" if process.returncode >= 0 else f"by signal {-process.returncode}"


def feed(process, piece):
    """A program that has met a fault reads no further."""
    try:
        process.stdin.write(piece)
    except BrokenPipeError:
        pass


def read_bytes(process, count):
    """That many bytes, or those that came in time."""
    read, until = b"", time.monotonic() + WAIT_SECONDS
    while len(read) < count and select.select([process.stdout], [], [], max(0, until - time.monotonic()))[0]:
        piece = process.stdout.read(count - len(read))
        if not piece:
            break
        read += piece
    return read


def finish(process, output):
    """Closes the input and takes what is left."""
    try:
        rest, errors = process.communicate(timeout=WAIT_SECONDS)
    except subprocess.TimeoutExpired:
        process.kill()
        rest, _ = process.communicate()
        return {"output": output + rest, "errors": b"", "ended": "not in time"}
    return {"output": output + rest, "errors": errors, "ended": how_ended(process)}
