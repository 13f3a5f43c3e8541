"""Makes cases from a seed: programs of several kinds, with images and calls.

A case is (image, program, calls), a call (verb, fuel). `case(random)` gives one of any kind.
"""
import struct

START, GO_ON, SAVE, RERUN = 0, 1, 2, 3
END_CALL, EQ, NEQ, UNUSED = b"\x12", b"\x16", b"\x17", (0x00, 0x02, 0x0c, 0x20, 0x7f, 0xff)
NUMBERS = (0, 1, 2, 3, 4, 5, 7, 8, 63, 64, 127, 128, 129, 254, 255, 256, 257, 511, 512, 513, 1000, 65535, 65536, 65537, 2 ** 25 - 1, 2 ** 25,
           2 ** 30, 2 ** 30 + 1, 2 ** 31, 2 ** 32 - 2, 2 ** 32 - 1)


# Instructions

def u32(n):
    return b"\x01" + struct.pack(">I", n)


def u8(n, opcode=3):
    return bytes([opcode, n])


def calldata(body):
    return b"\x04" + struct.pack(">H", len(body)) + body


def m_sti(size, tag, payload=None, signal=0):
    return b"\x1b" + struct.pack(">HBB", size, tag, signal if payload is None else 1) + (payload or b"")


def text(data):
    return m_sti(len(data), 4, data)


def numbers(*values):
    return m_sti(4 * len(values), 6, struct.pack("<%dI" % len(values), *values))


def jump(target):
    return b"\x1a" + struct.pack(">I", target)


def loop(times, body):
    """The body, so many times, at least once."""
    return u32(times) + u32(0) + b"\x0e" + body + b"\x0f"


def create(title=b"", states=1, body=b"", reference=None):
    return text(title) + u32(states) + (calldata(body) if reference is None else u32(reference)) + b"\x07"


def get(id, field):
    return u32(id) + u8(field, 5) + b"\x08"


def put(value, id, field):
    return value + u32(id) + u8(field, 5) + b"\x09"


def call(id):
    return u32(id) + b"\x11"


# Images

def image(next_id, *tasks, count=None):
    """An image of tasks (id, states, state, title, instructions)."""
    def record(kind, body):
        return struct.pack("<IH", len(body), kind) + body
    made = record(1, struct.pack("<II", next_id, len(tasks) if count is None else count))
    for id, states, state, title, body in tasks:
        made += record(2, struct.pack("<IBBH", id, states, state, len(title)) + title + body)
    return made


def pack(case):
    """The bytes of a case in a batch."""
    image, program, calls = case
    made = struct.pack("<I", len(image)) + image + struct.pack("<I", len(program)) + program + struct.pack("<I", len(calls))
    return made + b"".join(struct.pack("<BQ", verb, fuel) for verb, fuel in calls)


# Random parts

def some_number(r):
    return r.choice(NUMBERS) if r.random() < 0.3 else r.randrange(6)


# Texts that could be taken for lines of a listing, or for bytes that it escapes.
TAKEN = (b"Ab\nu32 5", b"a\ntask 0 0 b", b"\n", b"\\", b"\\0A", b"\\5C0A", b"\r\n", bytes(4))
SEVERAL = ("\u00e9", "\u2262\u0391", "\U00010348", "\u0080", "\u0085", "\u07ff", "\u2028", "\uffff", "\U0010ffff")
STRAY = (0x80, 0xa0, 0xbf, 0xc0, 0xc3, 0xe2, 0xed, 0xf0, 0xf4, 0xf5, 0xff)


def letter(r):
    return bytes([r.choice(b"abAB 09.")])


def hidden(r):
    """A byte below 128 that a listing escapes."""
    return bytes([r.choice((r.randrange(32), r.randrange(32), 0x5c, 0x7f))])


def several(r):
    """A character of several bytes."""
    return r.choice(SEVERAL).encode()


def stray(r):
    """A byte that alone is not UTF-8."""
    return bytes([r.choice(STRAY)])


def some_text(r):
    """A few letters; or with bytes among them that are escaped, with longer characters too, or with strays too, and then mostly not UTF-8."""
    kind = r.random()
    if kind < 0.5:
        return b"".join(letter(r) for _ in range(r.randrange(6)))
    if kind < 0.6:
        return r.choice(TAKEN)
    parts = (letter, hidden) if kind < 0.7 else (letter, hidden, several) if kind < 0.85 else (letter, hidden, several, stray)
    return b"".join(r.choice(parts)(r) for _ in range(r.randrange(1, 6)))


def long_text(r, size):
    """So many bytes: those of a text, again and again."""
    return ((some_text(r) or b"a") * size)[:size]


def some_image(r):
    kind = r.random()
    if kind < 0.6:
        return b""
    ids = sorted(r.sample(range(8), r.randrange(5)))
    next_id = (ids[-1] + 1 if ids else 0) + r.choice((0, 0, 0, 1, 4))
    if kind > 0.97:
        next_id = r.choice((255, 256))
    tasks = []
    for id in ids:
        states = r.choice((1, 2, 3, 255))
        title = some_text(r).decode("utf-8", "ignore").encode()
        body = b"" if r.random() < 0.3 else some_body(r)
        tasks.append((id, states, r.randrange(states), title, body))
    return image(next_id, *tasks)


def some_body(r):
    """Instructions of a task, which mostly return."""
    kind = r.random()
    if kind < 0.5:
        body = b"".join(r.choice((u32(some_number(r)), b"\x0d", b"\x14\x13", text(b"t"), u8(3), calldata(END_CALL))) for _ in range(r.randrange(1, 4)))
    elif kind < 0.7:
        body = b"".join(instruction(r, 20) for _ in range(r.randrange(1, 5)))
    elif kind < 0.8:
        body = r.choice((b"\x10", b"\x0f", b"\x0d\x0d\x0e", call(r.randrange(3)), b"\x0b", get(r.randrange(3), r.randrange(3))))
    else:
        body = loop(r.randrange(1, 4), r.choice((b"\x10", b"\x0d", b"\x00")))
    return body if r.random() < 0.15 else body + END_CALL


def fuel(r):
    return r.choice((0, 1, 1, 2, 3, 5, 8, 13, 21))


def begin(r):
    return r.choice((START, RERUN))


def some_calls(r, whole=2000):
    kind = r.random()
    if kind < 0.35:
        return [(begin(r), whole) for _ in range(r.randrange(1, 5))]
    if kind < 0.5:
        return [(begin(r), whole), (SAVE, 0), (begin(r), whole), (SAVE, 0)]
    if kind < 0.85:                                                     # pauses, and runs after them
        calls = []
        for _ in range(r.randrange(1, 4)):
            calls += [(begin(r), fuel(r))] + [(GO_ON, fuel(r)) for _ in range(r.randrange(3))] + [(GO_ON, whole)]
            if r.random() < 0.3:
                calls.insert(r.randrange(len(calls) + 1), (SAVE, 0))
        return calls
    return [(r.choice((START, RERUN, GO_ON, GO_ON, SAVE)), r.choice((0, 1, 2, 5, 10, whole))) for _ in range(r.randrange(1, 7))]


def instruction(r, length):
    """A whole instruction with any operands, of a program of about this length."""
    opcode = r.choice((*range(1, 0x20), *range(1, 0x20), r.choice(UNUSED)))
    if opcode == 0x01:
        return u32(some_number(r))
    if opcode in (0x03, 0x05, 0x06):
        return u8(r.choice((0, 1, 2, 3, 255, r.randrange(256))), opcode)
    if opcode == 0x04:
        return calldata(b"" if r.random() < 0.3 else some_body(r) if r.random() < 0.3 else r.choice((END_CALL, u32(7) + END_CALL, b"\x0d\x12")))
    if opcode == 0x1a:
        return jump(r.randrange(length + 4) if r.random() < 0.95 else some_number(r))
    if opcode == 0x1b:
        tag = r.choice((4, 4, 4, 6, 6, 6, 5, 0, 2, 7, 255)) if r.random() < 0.2 else r.choice((4, 6))
        if r.random() < 0.6:
            return text(some_text(r)) if tag == 4 else m_sti(4, tag, bytes(r.randrange(256) for _ in range(4)))
        return m_sti(r.choice((0, 1, 2, 3, 4, 5, 6, 8, 12, 128, 129, 512, 1024)), tag, signal=r.choice((0, 0, 0, 2, 255)))
    if opcode == 0x1c:
        return u32(r.choice((0, 1, 4, 6, 8, 65535, 65536))) * (r.random() < 0.7) + bytes([0x1c, r.choice((4, 4, 6, 6, 5, 1))])
    if opcode == 0x1e:
        return bytes([opcode]) + struct.pack(">I", some_number(r))
    return bytes([opcode])


# The kinds of programs

def random_bytes(r):
    limit = r.choice((256, 32, 32, 32, 10))
    program = bytes(r.randrange(limit) for _ in range(r.randrange(1, 40)))
    return some_image(r), program, some_calls(r, 300)


def some_value(r):
    return r.choice((u32(some_number(r)), u8(r.randrange(4)), text(some_text(r)), numbers(*range(r.randrange(3))), calldata(END_CALL), b"\x0d\x0d\x16",
                     b"\x0d\x0d\x17", b"\x0d\x0d\x16\x14", calldata(b"") + b"\x14", m_sti(6, 6), create(some_text(r), 2, u32(5) + END_CALL)))


def random_instructions(r):
    """Some values, so that not everything ends with an empty stack, and whole instructions of any kind."""
    count = r.randrange(1, 20)
    program = b"".join(some_value(r) for _ in range(r.choice((0, 0, 2, 3, 6))))
    program += b"".join(instruction(r, len(program) + count * 3) for _ in range(count))
    return some_image(r), program, some_calls(r, 500)


def compared(r, push):
    """Two values and their comparison: mostly of one kind, sometimes a number and numbers, or of any two kinds. `push` makes a value of a kind."""
    chance, kind = r.random(), r.choice("NSVCB")
    if kind == "B" and r.random() < 0.4:
        return push("B") + b"\x14" + r.choice((EQ, NEQ))               # bools that are equal
    kinds = kind * 2 if chance < 0.9 else r.choice(("NV", "VN")) if chance < 0.98 else kind + r.choice("NSVCB")
    return push(kinds[0]) + push(kinds[1]) + r.choice((EQ, NEQ))


class Maker:
    """A program that mostly succeeds: what it pops has the kind it asks for."""

    def __init__(self, r, tasks):
        self.r, self.kinds, self.code, self.tasks, self.loops = r, [], b"", tasks, 0

    def add(self, code, taken="", given=""):
        if taken:
            del self.kinds[-len(taken):]
        self.kinds += given
        self.code += code

    def push(self, kind):
        r = self.r
        if kind == "N":
            return r.choice((u32(some_number(r)), u8(r.randrange(4)), u8(r.randrange(256), 6), b"\x0d", b"\x10" if self.loops else b"\x0d"))
        if kind == "S":
            return text(some_text(r))
        if kind == "V":
            return numbers(*(some_number(r) for _ in range(r.randrange(4))))
        if kind == "C":
            return calldata(b"" if r.random() < 0.2 else some_body(r))
        return u8(r.randrange(3)) + u8(r.randrange(3)) + bytes([r.choice((0x16, 0x17, 0x18, 0x19))])

    def ends(self, kinds, floor):
        return len(self.kinds) - floor >= len(kinds) and "".join(self.kinds[-len(kinds):]) == kinds

    def step(self, floor, depth):
        r = self.r
        known = r.randrange(self.tasks) if self.tasks else 0
        choice = r.randrange(18)
        if choice < 4:
            kind = r.choice("NNSVCB")
            self.add(self.push(kind), given=kind)
        elif choice == 4:
            self.add(create(some_text(r), r.choice((1, 2, 3, 255, 257)), b"" if r.random() < 0.3 else some_body(r)))
            self.tasks += 1
        elif choice == 5 and self.tasks:
            field = r.randrange(3)
            self.add(get(known, field), given="SNC"[field])
        elif choice == 6 and self.tasks:
            field = r.randrange(3)
            self.add(put((text(some_text(r)), u8(0), calldata(some_body(r)))[field], known, field))
        elif choice == 7 and self.tasks:
            self.add(call(known) if r.random() < 0.9 else call(r.randrange(300)))
            self.kinds.append("?") if r.random() < 0.1 else None
        elif choice == 8 and r.random() < 0.2 and self.tasks:
            self.add(u32(known) + b"\x0a")
        elif choice == 9:
            self.add(r.choice((b"\x0b", b"\x0c", b"\x00", b"\x0d\x13", bytes([r.choice(UNUSED)]))))
        elif choice == 10 and depth < 2:
            self.repeat(depth)
        elif choice == 11 and depth < 4:
            self.branch(depth)
        elif choice == 12 and len(self.kinds) > floor:
            top = self.kinds[-1]
            self.add(r.choice((b"\x14\x13", b"\x14")), given="")
            if self.code.endswith(b"\x14"):
                self.kinds.append(top)
        elif choice == 13 and self.ends("NN", floor):
            self.add(*r.choice(((b"\x16", "NN", "B"), (b"\x17", "NN", "B"), (b"\x18", "NN", "B"), (b"\x19", "NN", "B"), (b"\x15", "", ""))))
        elif choice == 13 and any(self.ends(kind * 2, floor) for kind in "SVCB"):
            self.add(r.choice((EQ, NEQ)), "??", "B")
        elif choice == 14 and self.ends("N", floor):
            self.add(b"\x1e" + struct.pack(">I", r.randrange(4)) if r.random() < 0.5 else u8(r.randrange(5)) + b"\x1f")
        elif choice == 15:
            width, size = r.choice((("S", 4), ("V", 6))), r.choice((4, 5, 8, 12))
            self.add(u8(size) + bytes([0x1c, width[1]]), given=width[0])
            if r.random() < 0.8:
                index = r.randrange(size if width[0] == "S" else size // 4)
                self.add(u8(index) + u32(r.choice((0x41, 0x61, 0xc3, 2 ** 32 - 1, 0x100, 0x5c, 0x17f, 0x20a))) + b"\x1d")
        elif choice == 16 and len(self.kinds) > floor:
            self.add(b"\x13", "?")
        elif choice == 17:
            self.add(compared(r, self.push), given="B")

    def steps(self, count, floor, depth):
        for _ in range(count):
            self.step(floor, depth)

    def level(self, floor):
        self.add(b"\x13" * (len(self.kinds) - floor))
        del self.kinds[floor:]

    def repeat(self, depth):
        floor = len(self.kinds)
        self.add(u32(self.r.randrange(5)) + u32(self.r.randrange(3)) + b"\x0e")
        self.loops += 1
        self.steps(self.r.randrange(5), floor, depth + 1)
        if self.r.random() < 0.9:
            self.level(floor)
        self.add(b"\x0f" if self.r.random() < 0.97 else b"")
        self.loops -= 1

    def branch(self, depth):
        """A part that is jumped over on FALSE, or, sometimes, gone back to."""
        r, start, floor = self.r, len(self.code), len(self.kinds)
        self.add(self.push("B") + b"\x1a0000")
        place = len(self.code)
        self.steps(r.randrange(4), floor, depth + 1)
        self.level(floor)
        target = len(self.code) if r.random() < 0.9 else start
        self.code = self.code[:place - 4] + struct.pack(">I", target) + self.code[place:]


def mostly_good(r):
    loaded = some_image(r)
    maker = Maker(r, 1 if loaded and r.random() < 0.5 else 0)
    maker.steps(r.randrange(2, 25), 0, 0)
    return loaded, maker.code or b"\x00", some_calls(r)


def changed(r):
    """A copy of a better program, cut, or with a byte changed, put in or left out, or with a part twice."""
    loaded, program, calls = r.choice((mostly_good, mostly_good, random_instructions, boundary))(r)
    for _ in range(r.choice((1, 1, 1, 2, 4))):
        at, kind = r.randrange(len(program)), r.randrange(6)
        if kind == 0:
            program = program[:at]
        elif kind == 1:
            program = program[:at] + bytes([r.randrange(256)]) + program[at + 1:]
        elif kind == 2:
            program = program[:at] + bytes([r.randrange(0x20)]) + program[at + 1:]
        elif kind == 3:
            program = program[:at] + bytes([r.randrange(0x20)]) + program[at:]
        elif kind == 4:
            program = program[:at] + program[at + 1:]
        else:
            end = min(len(program), at + r.randrange(1, 12))
            program = program[:end] + program[at:end] + program[end:]
        if not program:
            break
    if loaded and r.random() < 0.15:
        at = r.randrange(len(loaded))
        loaded = loaded[:at] + (bytes([r.randrange(256)]) + loaded[at + 1:] if r.random() < 0.7 else b"")
    return loaded, program[:65600], calls


# The boundaries of every capacity

def full_stack(r):
    """So many values, and then any instruction."""
    height = r.choice((998, 999, 1000, 1001))
    value = r.choice((u8(2), u32(0), b"\x0d", u8(1, 6), u8(1, 5)))
    push = loop(height, value)
    after = r.choice((instruction(r, 5), b"\x0d", u8(1), u32(9), b"\x14", b"\x10", calldata(END_CALL), text(b"a"), m_sti(4, 6), m_sti(4, 5), b"\x15", b"\x16",
                      b"\x1f", b"\x1c\x04", b"\x0e\x10", b"\x13" + calldata(b""), b"\x11", b"\x1d"))
    before = b"" if r.random() < 0.6 else u32(5) + u32(0) + b"\x0e"
    return before + push + after + (instruction(r, 5) if r.random() < 0.3 else b"")


def full_memory(r):
    last = r.choice((0, 1, 2, 3, 4, 5))
    filled = r.choice((m_sti(65535, 4), m_sti(65533, 4), m_sti(65532, 6), m_sti(65535, 6), u32(65535) + b"\x1c\x04", m_sti(32768, 4) * 2, m_sti(65531, 4) + m_sti(1, 4)))
    more = r.choice((m_sti(last, 4), m_sti(last, 6), text(b"ab"[:last]), u32(last) + b"\x1c\x04", u32(last) + b"\x1c\x06", m_sti(last, 5), get(0, 0), b"\x0d\x0b"))
    first = create(b"t" * r.choice((0, 1, 2, 3))) if r.random() < 0.5 else b""
    return first + filled + b"\x13" * r.randrange(2) + more + more * r.randrange(2)


def full_pool(r):
    kind = r.choices(range(4), (5, 5, 5, 1))[0]
    if kind == 0:                                                       # entries
        return loop(r.choice((1021, 1022, 1023, 1024)), calldata(r.choice((b"", END_CALL))) + b"\x13") + calldata(b"") * r.randrange(3)
    if kind == 1:                                                       # bytes, by a loop over some data
        size = r.choice((300, 1000, 4000))
        body = calldata(bytes(size)) + b"\x13"
        length = len(loop(1, body))
        return loop((65536 - length) // size + r.choice((-1, 0, 1)), body) + (calldata(b"") if r.random() < 0.5 else b"")
    if kind == 2:                                                       # bytes, to the last one
        size = 32766 + r.choice((-1, 0, 1))
        return calldata(bytes(size)) + r.choice((b"", b"\x04\x00\x00", b"\x04\x00\x01\x12"))
    return calldata(END_CALL) + b"\x0d" * r.randrange(3)                  # entries, by many runs


def full_table(r):
    times = r.choice((254, 255, 256, 257))
    title = long_text(r, r.choice((1, 5, 128)))
    body = r.choice((create(), text(title) + u8(2) + u32(0) + b"\x07", text(b"t" * 129) + u8(2) + u32(0) + b"\x07" if r.random() < 0.1 else create(b"x", 3)))
    if body == create():
        times = r.choice((250, 255, 256, 257))
    after = r.choice((b"", b"\x0b", u32(255) + b"\x0a", u32(255) + b"\x0a" + create(), b"\x0d", get(255, 0), create(b"t" * 129), call(255), u32(times) + b"\x0a"))
    return loop(times, body) + after


def long_title(r):
    size = r.choice((127, 128, 129, 130))
    title = r.choice((m_sti(size, 4), m_sti(size, 6), text(long_text(r, size)), text(long_text(r, size))))
    if r.random() < 0.5:
        return title + u8(1) + u32(0) + b"\x07" + get(0, 0) + b"\x0b" * r.randrange(2)
    return create(b"a") + put(title, 0, 0) + get(0, 0)


def large_save(r):
    """An image of the save buffer's length, or of one byte more or less: 16 tasks that name the program."""
    titles = 2 + r.choice((-1, 0, 0, 1))
    start = b"".join(text(b"t" * (k < titles)) + u8(1) + u32(0) + b"\x07" for k in range(16)) + b"\x0b" + b"\x0d\x0d\x19"
    return start + jump(65521) + bytes(65521 - len(start) - 5)


def limits(r):
    """Numbers at the limit of what an instruction takes."""
    n = r.choice(NUMBERS)
    return r.choice((
        text(b"t") + u32(n) + calldata(b"") + b"\x07" + b"\x0b",
        create(b"t", r.choice((1, 2, 254, 255))) + put(u32(n), 0, 1) + get(0, 1),
        create(b"t") + get(n, r.randrange(3)), create(b"t") + get(0, n % 256), create(b"t") + u32(0) + u32(n) + b"\x08",
        create(b"t") + put(u32(n), 0, 2) + call(0) + get(0, 2) + b"\x0b",
        u32(n) + u32(r.choice(NUMBERS)) + b"\x1f", u32(n) + b"\x1e" + struct.pack(">I", r.choice(NUMBERS)),
        u32(n) + bytes([0x1c, r.choice((4, 6))]), m_sti(r.choice((0, 3, 4, 6, 8)), r.choice((4, 6))) + u32(n) + u32(r.choice(NUMBERS)) + b"\x1d",
        u32(n) + u32(r.choice(NUMBERS)) + b"\x0e\x10\x13\x0f", u32(n) + m_sti(r.choice((0, 512, 4)), 6) + r.choice((EQ, NEQ)),
        m_sti(4, 4) + u32(n) + m_sti(512, 4) + b"\x16", u32(r.randrange(2)) + u32(1) + b"\x18" + jump(n), u32(n) + b"\x0a",
    ))


def program_as_task(r):
    """A task that names the program: two frames on entry 0."""
    task = text(b"p") + u8(1) + u32(0) + b"\x07" + call(0) + u8(9)
    return b"\x0d" + u32(0) + b"\x16" + jump(12 + len(task)) + task + r.choice((END_CALL, b"\x00")) + u8(7) + r.choice((b"", call(0)))


def orders(r):
    """Two refusals at once: which of them is answered."""
    many, bad = u8(1) * r.choice((997, 998, 999, 1000)), b"\xff"
    pool = loop(1023, calldata(b"") + b"\x13")
    memory = m_sti(65535, r.choice((4, 6)))
    inner = r.choice((call(1), call(0), call(1) + u8(7), b"\x0f", b"\x10", b"\x0d\x0d\x0e", b"\x12", b"", b"\x0b"))
    named = r.choice((create(b"a", 1, b""), create(b"a", 1, u8(5) + END_CALL), create(bad, 2, reference=99), create(b"a", 1, reference=0), create(bad, 1, b"")))
    task = create(b"t", 1, inner + END_CALL)
    return r.choice((
        pool + many + calldata(b""), pool + calldata(b"") * r.randrange(2) + b"\x04\x00", memory + many + m_sti(4, r.choice((4, 5, 6))),
        memory + u32(65536) + b"\x1c\x04", memory + u8(9) + b"\x1c\x05", u32(65536) + b"\x1c", u32(65535) + b"\x1c", many + b"\x1b\x00\x01\x05", b"\x1c",
        many + b"\x01\x00", many + b"\x03", many + b"\x04\x00\x01", many + m_sti(2, 9), u8(1) + b"\x07", u32(256) + u8(0) + b"\x07", u8(1) + u8(0) + b"\x07",
        u8(3) + b"\x08", u8(3) + b"\x09", u8(0) + b"\x08", u8(0) + u8(2, 5) + b"\x09", create(b"t", 2) + u8(0) + u8(r.randrange(4), 5) + b"\x09",
        create(b"t", 2) + put(u8(1), 0, 0), create(b"t", 2) + put(u32(r.choice((1, 2, 3, 255, 256, 257))), 0, 1) + get(0, 1),
        task + named + call(0) + u8(4), named + task + call(1) + call(0) + u8(4), named + b"\x0b", named + named + b"\x0b", task + named + u32(0) + b"\x0a" + b"\x0b",
        b"\x0d\x0d\x0e" * 2 + r.choice((b"", u8(1))) + b"\x0e", b"\x0d\x0d\x0e" + many + b"\x10", b"\x0d\x1e\x00", text(b"") + b"\x1e\x00", b"\x1e\x00",
        text(b"") + b"\x1e" + bytes(4), text(b"") + u8(0) + b"\x1f", u8(0) + text(b"") + b"\x1f", text(b"") + u8(0) + b"\x18", u8(0) + calldata(b"") + b"\x19",
        m_sti(r.choice((0, 4, 6, 8)), 6) + u32(r.choice((0, 1, 2, 2 ** 30, 2 ** 30 + 1, 2 ** 32 - 1))) + u8(1) + b"\x1d", u8(0) * 3 + b"\x1d", u8(0) + text(b"") + u8(0) + b"\x1d",
        b"\x0d\x0d" + r.choice((EQ, NEQ)) + b"\x0d\x0d" + r.choice((EQ, NEQ)) + r.choice((EQ, NEQ)), program_as_task(r),
        b"\x0d\x0d" + r.choice((EQ, NEQ)) + b"\x1a" + bytes(r.randrange(4)), u8(1) + u8(0) + b"\x0d\x0d\x16\x07",
        m_sti(6, 6) + u8(0) + r.choice((EQ, NEQ)), u8(0) + m_sti(6, 6) + r.choice((EQ, NEQ)), calldata(b"") + b"\x14" + r.choice((EQ, NEQ)),
    ))


def length(r):
    size = r.choice((1, 65534, 65535, 65536))
    fill = r.choice((0x00, 0xff)) if size > 1 else r.randrange(256)
    start = calldata(b"x" * r.randrange(3)) * r.randrange(2) + b"\x0d\x0d\x19" + jump(size)
    return (start + bytes([fill]) * size)[:size] if size > 1 else bytes([fill])


def boundary(r):
    kind = r.choice((full_stack, full_stack, full_memory, full_memory, full_pool, full_table, long_title, limits, limits, limits, limits,
                     orders, orders, orders, orders))
    program = kind(r)
    many = kind is full_pool and len(program) < 10
    calls = [(begin(r), 3)] * 1030 if many else r.choice(([(START, 20000)], [(START, 20000), (begin(r), 20000)], [(START, 20000), (SAVE, 0)],
                                                          [(begin(r), 7), (GO_ON, 20000), (SAVE, 0)]))
    return r.choice((b"", b"", b"", edge_image(r))), program, calls


def rare(r):
    """Boundaries that make long answers or long programs."""
    if r.random() < 0.3:
        return b"", large_save(r), [(START, 100), (SAVE, 0)]
    if r.random() < 0.5:
        program = length(r)
        return b"", program, [(START, 50)]
    return edge_image(r), bytes([0x0b]), [(START, 5), (begin(r), 5)]


def unfinished(r):
    """A program whose run mostly leaves loops open, or ends inside a task, or both, and several runs of it by start and by rerun."""
    def some(most, *pieces):
        return b"".join(r.choice(pieces) for _ in range(r.randrange(most)))
    opened = some(3, b"\x0d\x0d\x0e", u8(r.randrange(4)) + u8(r.randrange(4)) + b"\x0e", b"\x0d", b"")
    often = b"\x0d" + u8(r.randrange(1, 4)) + EQ + jump(13 + r.randrange(2)) + r.choice((END_CALL, b"\x0f", b"\x0d")) + END_CALL
    body = r.choice((some(4, b"\x0d", b"\x10", b"\x0f", b"\x0d\x0d\x0e", u8(9), text(b"x"), calldata(END_CALL), b"\x0b"), often)) + r.choice((b"", b"", END_CALL))
    tasks = create(b"t", 2, body) * r.randrange(1, 3) if r.random() < 0.8 else b""
    main = opened + tasks + some(3, b"\x0d", u8(5), b"\x10", b"\x0f", b"\x0b") + (call(r.randrange(2)) if r.random() < 0.8 else b"") + some(3, u8(7), b"\x0d", call(0), b"\x0f")
    calls = [(begin(r), 500)]
    for _ in range(r.randrange(1, 6)):
        calls += r.choice(([(begin(r), 500)], [(begin(r), 500)], [(begin(r), fuel(r)), (GO_ON, 500)], [(SAVE, 0)]))
    return some_image(r), main or b"\x0d\x0d\x0e", calls


def edge_image(r):
    """An image at the limits: sound, or unsound by one."""
    kind = r.randrange(9)
    if kind == 0:
        return image(r.choice((0, 1, 255, 256, 257)))
    if kind == 1:
        return image(256, *((id, 1, 0, b"", b"") for id in range(r.choice((255, 256)))))
    if kind == 2:
        return image(9, (0, 2, 1, b"a" * r.choice((127, 128, 129)), END_CALL), (5, 255, r.choice((253, 254, 255)), b"b", b""))
    if kind == 3:
        return image(2, (0, 1, 0, "é".encode()[:r.choice((1, 2))], b""), (1, r.choice((0, 1)), 0, b"", b""))
    if kind == 4:
        return image(r.choice((5, 6)), (0, 1, 0, b"", END_CALL), (5, 1, 0, b"", b""))
    if kind == 5:
        return image(3, (1, 1, 0, b"", b""), (r.choice((0, 1, 2)), 1, 0, b"", b""))
    if kind == 6:
        return image(3, (1, 1, 0, b"x", b"\x0d\x12"), count=r.choice((0, 1, 2)))
    if kind == 7:
        return image(1, (0, 1, 0, b"", bytes(r.choice((65500, 65535, 65536)))))
    made = image(9, (0, 3, 1, b"Ab", END_CALL), (5, 3, 2, b"c", b"\x0d\x12"))
    return made[:r.randrange(len(made) + 1)] + bytes(r.randrange(2))


KINDS, WEIGHTS = (random_bytes, random_instructions, mostly_good, changed, boundary, rare, unfinished), (10, 18, 38, 19, 10.9, 0.1, 4)


def case(r):
    return r.choices(KINDS, WEIGHTS)[0](r)
