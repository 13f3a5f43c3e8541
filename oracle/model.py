#!/usr/bin/env python3
"""The machine of docs/REFERENCE.md as a plain interpreter, and the lines that `replay` prints for a batch: a second reading of the requirements.

    oracle/model.py < batch

Written from the requirements and docs/DECISIONS.md; it shares nothing with the proved code, and oracle/compare holds it to the Rust, but for the
comparisons that the Rust answers otherwise (oracle/outcomes.py). A scalar is the pair (tag, payload), a vector the triple (tag, offset, size).
Every instruction makes its tests first, in the order of its refusals, and changes the machine only when all are passed.
"""
import struct, sys

STACK, LOOPS, FRAMES = 1000, 2, 2
MEMORY, POOL, ENTRIES, SLOTS, TITLE, SAVE, PROGRAM = 65536, 65536, 1024, 256, 128, 1048576, 65535
FALSE, TRUE = (2, 0), (3, 0)
TEXT, CALLDATA, NUMBER = 4, 5, 6


class Refused(Exception):
    """A refusal number and its details."""


def is_vector(value):
    return len(value) == 3


def number(value):
    return 128 * value[1] + value[2] // 512 if is_vector(value) else value[1]


def is_utf8(data):
    try:
        data.decode("utf-8", "strict")
        return True
    except UnicodeDecodeError:
        return False


class Task:
    def __init__(self, states, state, title, reference):
        self.states, self.state, self.title, self.reference = states, state, title, reference


# The task image

def record(kind, body):
    return struct.pack("<IH", len(body), kind) + body


def good_task(body, last, next_id):
    """Whether this is the body of a task that may follow one of id `last`."""
    if len(body) < 8:
        return False
    id, states, state, size = struct.unpack_from("<IBBH", body)
    title = body[8:8 + size]
    return last < id < next_id and states > 0 and state < states and size <= TITLE and len(title) == size and is_utf8(title)


def read_image(image):
    """The next id, and for each task its id, its fields and its instructions; 25 with the place of the first bad record."""
    if not image:
        return 0, []
    at, next_id, count, tasks, last = 0, None, None, [], -1
    while at < len(image):
        size, kind = struct.unpack_from("<IH", image, at) if len(image) - at >= 6 else (len(image), 0)
        body = image[at + 6:at + 6 + size]
        if len(body) < size:
            raise Refused(25, at)
        if next_id is None:
            if kind != 1 or size != 8 or struct.unpack("<I", body[:4])[0] > SLOTS:
                raise Refused(25, 0)
            next_id, count = struct.unpack("<II", body)
        elif kind != 2 or not good_task(body, last, next_id):
            raise Refused(25, at)
        else:
            last, states, state, title = struct.unpack_from("<IBBH", body)
            tasks.append((last, states, state, body[8:8 + title], body[8 + title:]))
        at += 6 + size
    if count != len(tasks):
        raise Refused(25, 0)
    return next_id, tasks


class Machine:
    def __init__(self, image, program):
        if not program:
            raise Refused(1)
        if len(program) > PROGRAM:
            raise Refused(28)
        self.next_id, loaded = read_image(image)
        self.pool, self.tasks, self.count = [program], {}, 0
        for id, states, state, title, instructions in loaded:
            self.tasks[id] = Task(states, state, title, len(self.pool))
            self.count = id + 1
            self.pool.append(instructions)
        self.pool_bytes = sum(map(len, self.pool))
        if self.pool_bytes > POOL or len(self.pool) > ENTRIES:
            raise Refused(22)
        self.phase, self.stack, self.loops, self.frames = "new", [], [], [[0, 0]]
        self.memory, self.saved, self.finished = bytearray(), b"", 0

    # The calls of the host

    def start(self, fuel):
        return self.begin(fuel, [], [[0, 0]])

    def rerun(self, fuel):
        return self.begin(fuel, self.loops, self.frames)

    def begin(self, fuel, loops, frames):
        if self.phase in ("paused", "stopped"):
            raise Refused(26)
        self.memory, self.stack, self.loops, self.frames = bytearray(), [], loops, frames
        return self.run(fuel)

    def go_on(self, fuel):
        if self.phase != "paused":
            raise Refused(26)
        return self.run(fuel)

    def save(self):
        image = self.image()
        if len(image) > SAVE:
            raise Refused(24)
        self.saved = image
        return len(image)

    def run(self, fuel):
        self.finished = 0
        while True:
            frame = self.frames[-1]
            code, place = self.pool[frame[0]], frame[1]
            if place >= len(code):
                frame[1], self.phase = 0, "done"
                return self.phase
            if self.finished == fuel:
                self.phase = "paused"
                return self.phase
            try:
                frame[1] = self.step(code, place)
            except Refused:
                self.phase = "stopped"
                raise
            self.finished += 1

    def step(self, code, place):
        """One instruction: the place that its frame goes on at."""
        return OPCODES.get(code[place], Machine.nothing)(self, code, place)

    def image(self):
        records = [record(1, struct.pack("<II", self.next_id, len(self.tasks)))]
        for id, task in sorted(self.tasks.items()):
            instructions = self.entry(task.reference)
            if not is_utf8(task.title):
                raise Refused(15)
            records.append(record(2, struct.pack("<IBBH", id, task.states, task.state, len(task.title)) + task.title + instructions))
        return b"".join(records)

    # What the instructions share

    def top(self, position):
        """The value at this position from the top, from 1."""
        if len(self.stack) < position:
            raise Refused(3)
        return self.stack[-position]

    def room(self, taken):
        """Room for a value, once so many are taken."""
        if len(self.stack) - taken >= STACK:
            raise Refused(4)

    def give(self, taken, *values):
        if values:
            self.room(taken)
        self.stack[len(self.stack) - taken:] = values

    def entry(self, reference):
        if reference >= len(self.pool):
            raise Refused(12, reference)
        return self.pool[reference]

    def task(self, id):
        if id not in self.tasks:
            raise Refused(9, id)
        return self.tasks[id]

    def bytes_of(self, vector):
        return bytes(self.memory[vector[1]:vector[1] + vector[2]])

    def title_of(self, value):
        if not is_vector(value):
            raise Refused(5)
        return self.bytes_of(value)

    def allocate(self, taken, tag, size, payload):
        if tag not in (TEXT, NUMBER):
            raise Refused(5)
        offset = (len(self.memory) + 3) // 4 * 4 if tag == NUMBER else len(self.memory)
        if offset >= 2 ** 25:
            raise Refused(13)
        self.room(taken)
        if offset + size > MEMORY:
            raise Refused(23)
        self.memory.extend(bytes(offset - len(self.memory)) + (payload or bytes(size)))
        self.give(taken, (tag, offset, size))

    # The instructions

    def nothing(self, code, place):
        return place + 1

    def push_u32(self, code, place):
        self.give(0, (NUMBER, operand(code, place + 1, 4)))
        return place + 5

    def push_u8(self, code, place):
        self.give(0, (NUMBER, operand(code, place + 1, 1)))
        return place + 2

    def push_calldata(self, code, place):
        data = part(code, place + 3, operand(code, place + 1, 2))
        self.room(0)
        if self.pool_bytes + len(data) > POOL or len(self.pool) >= ENTRIES:
            raise Refused(22)
        self.give(0, (CALLDATA, len(self.pool)))
        self.pool.append(data)
        self.pool_bytes += len(data)
        return place + 3 + len(data)

    def t_create(self, code, place):
        reference, states = number(self.top(1)), number(self.top(2)) % 256
        if states == 0:
            raise Refused(8)
        title = self.title_of(self.top(3))
        if self.next_id >= SLOTS:
            raise Refused(20)
        if len(title) > TITLE:
            raise Refused(21)
        self.give(3)
        self.tasks[self.next_id] = Task(states, 0, title, reference)
        self.next_id += 1
        self.count = max(self.count, self.next_id)
        return place + 1

    def field_and_task(self):
        field = number(self.top(1))
        if field > 2:
            raise Refused(10, field)
        return field, self.task(number(self.top(2)))

    def t_get_field(self, code, place):
        field, task = self.field_and_task()
        if field == 0:
            self.allocate(2, TEXT, len(task.title), task.title)
        elif field == 1:
            self.give(2, (NUMBER, task.state))
        else:
            self.give(2, (CALLDATA, task.reference))
        return place + 1

    def t_set_field(self, code, place):
        field, task = self.field_and_task()
        value = self.top(3)
        if field == 0:
            title = self.title_of(value)
            if len(title) > TITLE:
                raise Refused(21)
            task.title = title
        elif field == 1:
            if number(value) >= task.states:
                raise Refused(11, number(value))
            task.state = number(value)
        else:
            task.reference = number(value)
        self.give(3)
        return place + 1

    def t_delete(self, code, place):
        id = number(self.top(1))
        self.task(id)
        del self.tasks[id]
        self.give(1)
        return place + 1

    def s_save(self, code, place):
        self.save()
        return place + 1

    def s_len(self, code, place):
        self.give(0, (NUMBER, self.count))
        return place + 1

    def do(self, code, place):
        index, limit = number(self.top(1)), number(self.top(2))
        if len(self.loops) == LOOPS:
            raise Refused(4)
        self.give(2)
        self.loops.append([place + 1, index, limit])
        return place + 1

    def loop(self, code, place):
        if not self.loops:
            raise Refused(3)
        back, index, limit = self.loops[-1]
        if index + 1 < limit:
            self.loops[-1][1] = index + 1
            return back
        self.loops.pop()
        return place + 1

    def loop_index(self, code, place):
        if not self.loops:
            raise Refused(3)
        self.give(0, (NUMBER, self.loops[-1][1]))
        return place + 1

    def call(self, code, place):
        task = self.tasks.get(number(self.top(1)))
        if task is None or not self.entry(task.reference):
            self.give(1)
            return place + 1
        if len(self.frames) == FRAMES:
            raise Refused(4)
        self.give(1)
        self.frames.append([task.reference, 0])
        return place + 1

    def end_call(self, code, place):
        if len(self.frames) > 1:
            self.frames.pop()
        return place + 1

    def drop(self, code, place):
        self.top(1)
        self.give(1)
        return place + 1

    def dup(self, code, place):
        self.give(0, self.top(1))
        return place + 1

    def swap(self, code, place):
        last, before = self.top(1), self.top(2)
        self.give(2, last, before)
        return place + 1

    def equal(self):
        """Whether the two values on top are equal, which only values of one kind can be: TRUE and FALSE are, a scalar and a vector never."""
        right, left = self.top(1), self.top(2)
        if is_vector(left) != is_vector(right) or left[0] != right[0] and {left, right} != {TRUE, FALSE}:
            raise Refused(6)
        return self.bytes_of(left) == self.bytes_of(right) if is_vector(left) else left == right

    def eq(self, code, place):
        self.give(2, TRUE if self.equal() else FALSE)
        return place + 1

    def neq(self, code, place):
        self.give(2, FALSE if self.equal() else TRUE)
        return place + 1

    def numbers(self):
        """The two values on top, the left one first, where both are numbers."""
        right, left = self.top(1), self.top(2)
        if is_vector(left) or is_vector(right) or left[0] != NUMBER or right[0] != NUMBER:
            raise Refused(5)
        return left[1], right[1]

    def lt(self, code, place):
        left, right = self.numbers()
        self.give(2, TRUE if left < right else FALSE)
        return place + 1

    def gt(self, code, place):
        left, right = self.numbers()
        self.give(2, TRUE if left > right else FALSE)
        return place + 1

    def mul(self, code, place):
        left, right = self.numbers()
        self.give(2, (NUMBER, product(left, right)))
        return place + 1

    def muli(self, code, place):
        value, factor = self.top(1), operand(code, place + 1, 4)
        if is_vector(value) or value[0] != NUMBER:
            raise Refused(5)
        self.give(1, (NUMBER, product(value[1], factor)))
        return place + 5

    def jump_if_false(self, code, place):
        target = operand(code, place + 1, 4) if self.top(1) == FALSE else place + 5
        self.give(1)
        return target

    def m_sti(self, code, place):
        size, tag, signal = operand(code, place + 1, 2), operand(code, place + 3, 1), operand(code, place + 4, 1)
        payload = part(code, place + 5, size) if signal == 1 else b""
        self.allocate(0, tag, size, payload)
        return place + 5 + len(payload)

    def m_st(self, code, place):
        size = number(self.top(1))
        if size > 65535:
            raise Refused(13)
        self.allocate(1, operand(code, place + 1, 1), size, b"")
        return place + 2

    def m_muta(self, code, place):
        value, index, vector = number(self.top(1)), number(self.top(2)), self.top(3)
        if not is_vector(vector):
            raise Refused(5)
        tag, offset, size = vector
        width = 4 if tag == NUMBER else 1
        if index >= size // width:
            raise Refused(14, index * width % 2 ** 32, size)
        at = offset + index * width
        self.memory[at:at + width] = value.to_bytes(4, "little")[:width]
        self.give(2)
        return place + 1


def part(code, at, size):
    if at + size > len(code):
        raise Refused(2)
    return code[at:at + size]


def operand(code, at, width):
    return int.from_bytes(part(code, at, width), "big")


def product(left, right):
    if left * right >= 2 ** 32:
        raise Refused(7)
    return left * right


OPCODES = {
    0x01: Machine.push_u32, 0x03: Machine.push_u8, 0x04: Machine.push_calldata, 0x05: Machine.push_u8, 0x06: Machine.push_u8,
    0x07: Machine.t_create, 0x08: Machine.t_get_field, 0x09: Machine.t_set_field, 0x0a: Machine.t_delete, 0x0b: Machine.s_save,
    0x0d: Machine.s_len, 0x0e: Machine.do, 0x0f: Machine.loop, 0x10: Machine.loop_index, 0x11: Machine.call, 0x12: Machine.end_call,
    0x13: Machine.drop, 0x14: Machine.dup, 0x15: Machine.swap, 0x16: Machine.eq, 0x17: Machine.neq, 0x18: Machine.lt, 0x19: Machine.gt,
    0x1a: Machine.jump_if_false, 0x1b: Machine.m_sti, 0x1c: Machine.m_st, 0x1d: Machine.m_muta, 0x1e: Machine.muli, 0x1f: Machine.mul,
}


# The lines of replay

def escaped(data):
    """A text or a title as a line shows it. Each byte below 32, the byte 127 and the backslash stand as a backslash and two hex digits; in bytes that
    are not UTF-8 so does each from 128 up."""
    high = 256 if is_utf8(data) else 128
    shown = {byte: b"\\%02X" % byte if byte < 32 or byte in (92, 127) or byte >= high else bytes([byte]) for byte in set(data)}
    return b"".join(shown[byte] for byte in data)


def value_line(machine, value):
    tag = value[0]
    if value in (TRUE, FALSE):
        return b"bool true" if value == TRUE else b"bool false"
    if tag == CALLDATA:
        known = value[1] < len(machine.pool)
        return b"calldata " + machine.pool[value[1]].hex().encode() if known else b"bad 12"
    if not is_vector(value):
        return b"u32 %d" % value[1]
    data = machine.bytes_of(value)
    if tag == TEXT:
        return b"text " + escaped(data) if is_utf8(data) else b"bad 15"
    if len(data) % 4:
        return b"bad 17"
    return b"vec " + b" ".join(b"%d" % n for n, in struct.iter_unpack("<I", data))


def refused_line(refusal):
    return b" ".join([b"refused"] + [b"%d" % n for n in refusal.args])


def machine_lines(machine):
    yield b"machine height %d memory %d pool %d entries %d next %d count %d saved %d" % (
        len(machine.stack), len(machine.memory), machine.pool_bytes, len(machine.pool), machine.next_id, machine.count, len(machine.saved))
    for place, index, limit in machine.loops:
        yield b"loop %d %d %d" % (place, index, limit)
    for entry, place in machine.frames:
        yield b"frame %d %d" % (entry, place)
    yield b"memory " + machine.memory.hex().encode()
    if machine.saved:
        yield b"image " + machine.saved.hex().encode()


def call_lines(machine, verb, fuel):
    yield [b"start %d" % fuel, b"continue %d" % fuel, b"save", b"rerun %d" % fuel][verb]
    values = []
    try:
        if verb == 2:
            yield b"saved %d" % machine.save()
        else:
            phase = {0: machine.start, 1: machine.go_on, 3: machine.rerun}[verb](fuel)
            yield b"%s %d" % (phase.encode(), machine.finished)
            values = machine.stack if phase == "done" else []
    except Refused as refusal:
        yield refused_line(refusal)
    yield b"values %d" % len(values)
    for value in values:
        yield value_line(machine, value)
    yield b"tasks %d" % len(machine.tasks)
    for id, task in sorted(machine.tasks.items()):
        yield b"task %d %d " % (id, task.state) + escaped(task.title)
    yield from machine_lines(machine)


def replay_lines(batch):
    """Every line of a batch. A break of its form is told at the start of the number or the bytes that are cut, or of the wrong verb."""
    at = 0

    def take(size):
        nonlocal at
        if size > len(batch) - at:
            raise EOFError
        at += size
        return batch[at - size:at]

    def unsigned(width):
        return int.from_bytes(take(width), "little")

    case = 0
    try:
        while at < len(batch):
            image, program, calls = take(unsigned(4)), take(unsigned(4)), unsigned(4)
            yield b"case %d" % case
            try:
                machine = Machine(image, program)
            except Refused as refusal:
                machine = None
                yield from [refused_line(refusal), b"values 0", b"tasks 0"]
            for _ in range(calls):
                if batch[at:at + 1] > b"\3":
                    raise EOFError
                verb, fuel = unsigned(1), unsigned(8)
                if machine:
                    yield from call_lines(machine, verb, fuel)
            case += 1
    except EOFError:
        yield b"bad batch at %d" % at


if __name__ == "__main__":
    for line in replay_lines(sys.stdin.buffer.read()):
        sys.stdout.buffer.write(line + b"\n")
