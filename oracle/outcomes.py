"""Every outcome of an opcode (docs/REFERENCE.md, 'Instruction set'), and a machine that notes which ones a case reaches.

A later run begins by a start or by a rerun, and the run before it may have left a loop open or ended inside a task (BEGINNINGS). A listing
shows texts and titles that may hold bytes which it escapes, and may be no UTF-8 (LISTED).

EQ and NEQ of some values are answered otherwise by the Rust: those of a scalar with a vector of its tag, which among a program's values is a number
with numbers, and those of TRUE with FALSE. `otherwise` tells them, from the two values alone, and AsRust has the Rust's answers to them.
"""
import re

import model
from model import FALSE, NUMBER, TEXT, TRUE, Refused, is_utf8, is_vector, number

EQ, NEQ = 0x16, 0x17
BEGINNINGS = [f"{verb} after {end}" for verb in ("start", "rerun") for end in ("an open loop", "a task", "a task with an open loop")]
HELD = {"a byte below 32": "[\0-\x1f]", "the byte 127": "\x7f", "a backslash": r"\\", "a longer character": "[^\0-\x7f]"}
LISTED = [f"{what}{form} with {held}" for what in ("text", "title") for form in ("", " not UTF-8") for held in (*HELD, "none of these")]
OTHERWISE = ["number with numbers", "numbers with number", "true with false", "false with true"]

# By opcode: how it can finish, and its refusals. `3 at 1` is 3 with one value on the stack; `2 after 3` is 2 with three bytes behind the opcode.
EQUALITY = [f"{kinds} {answer}" for kinds in ("number", "calldata", "text", "numbers") for answer in ("equal", "unequal")]
EQUALITY += ["bool equal", *OTHERWISE, "3 at 0", "3 at 1"]
EQUALITY += [f"6 {left} with {right}" for left in ("scalar", "vector") for right in ("scalar", "vector")]
COMPARISON = ["true", "false", "3 at 0", "3 at 1", "5"]
PUSH_U8 = ["finished", "2 after 0", "4"]
OUTCOMES = {
    0x00: ["finished"],
    0x01: ["finished", "4"] + [f"2 after {n}" for n in range(4)],
    0x02: ["finished"],
    0x03: PUSH_U8, 0x05: PUSH_U8, 0x06: PUSH_U8,
    0x04: ["with data", "empty", "2 after 0", "2 after 1", "2 in data", "4", "22 bytes", "22 entries"],
    0x07: ["finished", "3 at 0", "3 at 1", "8", "3 at 2", "5", "20", "21"],
    0x08: ["title", "state", "instructions", "3 at 0", "10", "3 at 1", "9", "23"],
    0x09: ["title", "state", "instructions", "3 at 0", "10", "3 at 1", "9", "3 at 2", "5", "21", "11"],
    0x0a: ["finished", "3 at 0", "9"],
    0x0b: ["with tasks", "without tasks", "12", "15", "24"],
    0x0c: ["finished"],
    0x0d: ["finished", "4"],
    0x0e: ["finished", "3 at 0", "3 at 1", "4"],
    0x0f: ["back", "on", "3"],
    0x10: ["finished", "3", "4"],
    0x11: ["entered", "no task", "empty", "3 at 0", "12", "4"],
    0x12: ["returned", "in main"],
    0x13: ["finished", "3 at 0"],
    0x14: ["finished", "3 at 0", "4"],
    0x15: ["finished", "3 at 0", "3 at 1"],
    EQ: EQUALITY, NEQ: EQUALITY, 0x18: COMPARISON, 0x19: COMPARISON,
    0x1a: ["taken", "not taken", "not taken, cut", "3 at 0"] + [f"2 after {n}" for n in range(4)],
    0x1b: [f"{kind} {how}" for kind in ("text", "numbers") for how in ("with payload", "of zeros", "with another signal")]
    + [f"2 after {n}" for n in range(4)] + ["2 in payload", "5", "4", "23", "padded"],
    0x1c: ["text", "numbers", "3 at 0", "13", "2 after 0", "5", "23"],
    0x1d: ["text", "numbers", "3 at 0", "3 at 1", "3 at 2", "5", "14", "14 wrapped"],
    0x1e: ["finished", "3 at 0", "5", "7"] + [f"2 after {n}" for n in range(4)],
    0x1f: ["finished", "3 at 0", "3 at 1", "5", "7"],
    0x20: ["finished"],
    0xff: ["finished"],
}
ALL = {(opcode, outcome) for opcode, outcomes in OUTCOMES.items() for outcome in outcomes}


def refusal(machine, opcode, code, place, args):
    """The name of a refusal in the table above."""
    said, rest = args[0], len(code) - place - 1
    if said == 3:
        return "3" if opcode in (0x0f, 0x10) else f"3 at {len(machine.stack)}"
    if said == 2:
        if opcode == 0x04 and rest >= 2:
            return "2 in data"
        if opcode == 0x1b and rest >= 4:
            return "2 in payload"
        return f"2 after {rest}"
    if said == 22:
        return "22 entries" if len(machine.pool) == model.ENTRIES else "22 bytes"
    if said == 6:
        return "6 " + " with ".join("vector" if is_vector(value) else "scalar" for value in machine.stack[-2:])
    if said == 14 and number(machine.stack[-2]) != args[1] and args[1] < args[2]:
        return "14 wrapped"
    return str(said)


def equality(value, answer):
    """The name of a comparison of two values of this one's kind."""
    kinds = "numbers" if value[0] == NUMBER and is_vector(value) else {5: "calldata", TEXT: "text", NUMBER: "number"}.get(value[0], "bool")
    return f"{kinds} {'equal' if answer else 'unequal'}"


def otherwise(left, right):
    """Which of the comparisons that the Rust answers otherwise these two values make, the right one on top; none if another."""
    if left[0] == right[0] and is_vector(left) != is_vector(right):
        return "numbers with number" if is_vector(left) else "number with numbers"
    return {(TRUE, FALSE): "true with false", (FALSE, TRUE): "false with true"}.get((left, right))


def listed(machine, done):
    """What the texts and titles of a listing hold, by the names of LISTED. Texts are listed if the run is done."""
    found, texts = set(), [("text", machine.bytes_of(value)) for value in machine.stack if value[0] == TEXT and done]
    for what, data in texts + [("title", task.title) for task in machine.tasks.values()]:
        form, good = "" if is_utf8(data) else " not UTF-8", data.decode(errors="ignore")
        found.update(f"{what}{form} with {held}" for held in [name for name, hold in HELD.items() if re.search(hold, good)] or ["none of these"])
    return found


class Noted(model.Machine):
    """The model's machine, with the outcomes that it has reached, those comparisons among them that the Rust answers otherwise, and its beginnings."""

    def __init__(self, *words):
        self.reached, self.otherwise, self.begun = set(), set(), set()
        super().__init__(*words)

    def begin(self, fuel, loops, frames):
        left = " with ".join(["a task"] * (len(self.frames) > 1) + ["an open loop"] * bool(self.loops))
        if left and self.phase == "done":
            self.begun.add(f"{'rerun' if frames is self.frames else 'start'} after {left}")
        return super().begin(fuel, loops, frames)

    def step(self, code, place):
        opcode, stack, frames, memory = code[place], self.stack[-3:], len(self.frames), len(self.memory)
        top = stack[-1] if stack else None
        known = self.tasks.get(number(top)) if opcode == 0x11 and top else None
        form = otherwise(*stack[-2:]) if opcode in (EQ, NEQ) and len(stack) > 1 else None
        if form:
            self.otherwise.add((opcode, form))
        try:
            goes = super().step(code, place)
        except Refused as refused:
            self.reached.add((opcode, form or refusal(self, opcode, code, place, refused.args)))
            raise
        if opcode == 0x04:
            said = "with data" if goes > place + 3 else "empty"
        elif opcode in (0x08, 0x09):
            said = ("title", "state", "instructions")[number(top)]
        elif opcode == 0x0b:
            said = "with tasks" if self.tasks else "without tasks"
        elif opcode == 0x0f:
            said = "on" if goes == place + 1 and not (self.loops and self.loops[-1][0] == goes) else "back"
        elif opcode == 0x11:
            said = "entered" if len(self.frames) > frames else "empty" if known else "no task"
        elif opcode == 0x12:
            said = "returned" if len(self.frames) < frames else "in main"
        elif opcode in (EQ, NEQ):
            said = form or equality(top, (self.stack[-1] == TRUE) == (opcode == EQ))
        elif opcode in (0x18, 0x19):
            said = "true" if self.stack[-1] == TRUE else "false"
        elif opcode == 0x1a:
            said = "taken" if top == FALSE else "not taken, cut" if goes > len(code) else "not taken"
        elif opcode == 0x1b:
            signal = code[place + 4]
            said = "text " if code[place + 3] == TEXT else "numbers "
            said += "with payload" if signal == 1 else "with another signal" if signal else "of zeros"
            if code[place + 3] == NUMBER and memory % 4:
                self.reached.add((opcode, "padded"))
        elif opcode in (0x1c, 0x1d):
            said = "text" if self.stack[-1][0] == TEXT else "numbers"
        else:
            said = "finished"
        self.reached.add((opcode, said))
        return goes


class AsRust(Noted):
    """The model's machine with the Rust's answers to the comparisons that it answers otherwise, and to those alone."""

    def equal(self):
        form = otherwise(*self.stack[-2:]) if len(self.stack) > 1 else None
        if form == "number with numbers":
            return number(self.stack[-2]) == number(self.stack[-1])
        if form:
            raise Refused(5 if form == "numbers with number" else 6)
        return super().equal()
