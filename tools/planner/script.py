"""A script: its statements one by one, and the events, with their records, that they give."""
import difflib
from typing import NamedTuple

from planner import wire
from planner.commands import COMMANDS
from planner.words import Fault, Words
from planner.zones import BLANK, IMAGE_LENGTH, SLOT_CONFIG, Token

LONGEST_INPUT = 65_536
MARKS = {"image": b"EE", "wake": b"WK", "idle": b"ID", "sleep": b"SL", "block": b"BK"}
STATEMENTS = ["image", "set", "wake", "idle", "sleep", "block", "command", *COMMANDS]


class Event(NamedTuple):
    line: int
    text: str
    kind: str  # the word that the bench's line starts with
    content: bytes  # the image or the block
    random: bytes  # the random bytes that go with a block

    def record(self):
        length = bytes([len(self.content)]) if self.kind == "block" else b""
        return MARKS[self.kind] + length + self.content + self.random


class TooLong(Fault):
    """From this line on the bench would take nothing."""


class Script:
    def __init__(self, folder):
        self.folder = folder
        self.events = []
        self.length = 0
        self.random = bytes(32)
        self.token = None

    def add(self, line, words):
        """One statement. A Fault says what is wrong with it."""
        text = " ".join(words)
        words = Words(words, self.folder)
        name = words.take("a statement").lower()
        if name not in STATEMENTS:
            near = difflib.get_close_matches(name, STATEMENTS, 1)
            hint = f"; perhaps `{near[0]}` is meant" if near else ""
            raise Fault(f"unknown word `{name}`{hint}: one of {', '.join(STATEMENTS)} expected")
        if name == "image":
            self.image(line, text, words)
        elif name == "random" and words.next_is("bytes"):
            words.choose("bytes")
            self.random = words.bytes("the value", 32)
        elif self.token is None:
            raise Fault(f"`{name}` before the first `image`: an image expected first")
        elif name == "set":
            self.set(words)
        elif name in ("wake", "idle", "sleep"):
            words.end()
            self.event(line, text, name)
        else:
            self.event(line, text, "block", self.block(name, words), self.random)

    def event(self, line, text, kind, content=b"", random=b""):
        event = Event(line, text, kind, content, random)
        self.length += len(event.record())
        if self.length > LONGEST_INPUT:
            raise TooLong(f"the records are {self.length} bytes with this line: up to {LONGEST_INPUT} expected by the bench")
        self.events.append(event)
        self.token.run(event)

    def image(self, line, text, words):
        image = bytes(IMAGE_LENGTH)
        try:
            image = named_image(words)
        finally:
            # also where this line is wrong: the lines below it are looked at on their own
            self.token = Token(image)
            self.event(line, text, "image", image)

    def set(self, words):
        """A change of the image that stands right above."""
        if self.events[-1].kind != "image":
            raise Fault("`set` changes the image right above it, and no image stands there")
        what = words.choose("config", "slotconfig", "otp", "slot")
        if what == "config":
            start = words.number("configuration byte", 87)
            row = words.bytes("the value")
            if start + len(row) > 88:
                raise Fault(f"{len(row)} bytes from configuration byte {start} on: up to {88 - start} expected")
        elif what == "otp":
            start, row = 88, words.bytes("OTP", 64)
        elif what == "slot":
            start, row = 152 + 32 * words.number("slot", 15), words.bytes("the slot", 32)
        else:
            start, row = SLOT_CONFIG + 2 * words.number("slot", 15), words.bytes("the SlotConfig", 2)
        image = self.events[-1].content
        image = image[:start] + row + image[start + len(row) :]
        self.events[-1] = self.events[-1]._replace(content=image)
        self.token = Token(image)

    def block(self, name, words):
        """The bytes that a statement sends as a block."""
        if name == "block":
            block = raw_block(words)
        elif name == "command":
            block = wire.block_of(any_fields(words))
        else:
            block = wire.block_of(COMMANDS[name](words, self.token))
        words.end()
        return block

    def records(self):
        return b"".join(event.record() for event in self.events)


def named_image(words):
    name = words.take("`zeros`, `blank` or a file")
    given = {"zeros": bytes(IMAGE_LENGTH), "blank": BLANK}.get(name.lower())
    image = words.file(name) if given is None else given
    words.end()
    if len(image) != IMAGE_LENGTH:
        raise Fault(f"the image `{name}` has {len(image)} bytes, {IMAGE_LENGTH} expected: configuration 88, OTP 64, data 512")
    return image


def raw_block(words):
    if words.next_is("empty"):
        words.choose("empty")
        return b""
    if not words.more():
        raise Fault("the block is missing: bytes expected, or `empty` for a block of none")
    block = words.bytes("the block")
    if len(block) > 255:
        raise Fault(f"the block has {len(block)} bytes: up to 255 expected, as its length is one byte of the record")
    return block


def any_fields(words):
    opcode = words.hexadecimal("an opcode", 2)
    param1 = words.hexadecimal("a Param1", 2)
    param2 = words.hexadecimal("a Param2", 4)
    data = words.bytes("the data") if words.more() else b""
    if len(data) > 248:
        raise Fault(f"the data has {len(data)} bytes: up to 248 expected, as the block's count is one byte")
    return wire.Fields(opcode, param1, param2, data)


def read_script(text, folder):
    """The script and what is wrong with it, as pairs of a line's number and a Fault."""
    script, faults = Script(folder), []
    for number, line in enumerate(text.split("\n"), 1):
        words = line.split("#", 1)[0].split()
        if not words:
            continue
        try:
            script.add(number, words)
        except Fault as fault:
            faults.append((number, fault))
            if isinstance(fault, TooLong):
                break
    return script, faults
