"""The bench's lines beside the script that caused them, in words."""
import re
from itertools import zip_longest

from planner import answers
from planner.answers import Misfit
from planner.zones import Token

WIDEST = 100  # a longer statement is shown by its front


class Explanation:
    def __init__(self):
        self.text = []
        self.complaints = []  # pairs of a line's number (None: all of them) and what does not fit
        self.token = None

    def run(self, script, lines):
        width = len(str(max((event.line for event in script.events), default=0)))
        for number, (event, line) in enumerate(zip_longest(script.events, lines), 1):
            if line is None:
                self.complaints.append((None, f"the lines end before `{shortened(event.text)}`, line {event.line} of the script"))
                return
            if not event or not fits(event, line):
                self.complaints.append((number, unfit(script, event, line)))
                return
            self.text.append(f"{event.line:{width}}  {shortened(event.text)}")
            try:
                said = self.said(event, line.split()[-1])
            except Misfit as misfit:
                said = [f"{line}: this does not fit"]
                self.complaints.append((number, f"{misfit} (line {event.line} of the script, `{shortened(event.text)}`)"))
            self.text += [" " * (width + 6) + words for words in said]

    def said(self, event, answer):
        if event.kind == "image":
            self.token = Token(event.content)
            return ["a fresh token, asleep"]
        before = self.token.power
        self.token.run(event)
        answered = event.kind == "block" and before == "awake" or event.kind == "wake" and before != "awake"
        if answered != (answer != "none"):
            raise Misfit(f"`{answer}`, and the token is {before}: {'an answer' if answered else '`none`'} expected")
        if answer == "none":
            return ["none: " + silence(event.kind, before)]
        result = answers.unframed(bytes.fromhex(answer))
        if event.kind == "block":
            return answers.meaning(event.content, event.random, result, self.token)
        if result != b"\x11":
            raise Misfit(f"`{answer}`: status 11 expected")
        return ["11: woken" + ("" if before == "asleep" else "; TempKey is as it was")]


def silence(kind, power):
    """Why an event has no answer."""
    if kind == "block":
        return f"the token is {power} and takes no block"
    if kind == "wake":
        return "the token is awake already"
    if kind == "sleep":
        return f"sleep gives no answer; the token is asleep, {answers.EMPTIED}"
    return "idle gives no answer; " + ("the token is idle, TempKey is kept" if power == "awake" else f"the token stays {power}")


def fits(event, line):
    """Whether it is a line that the bench prints for such an event."""
    pattern = "image" if event.kind == "image" else f"{event.kind} (none|([0-9A-F]{{2}})+)"
    return re.fullmatch(pattern, line)


def unfit(script, event, line):
    """Why a line does not belong to its place in the script."""
    if line == "too long":
        return f"too long: the bench was given more than 65536 bytes and ran nothing; this script's records are {script.length}"
    if re.fullmatch("bad [0-9]+", line):
        return f"{line}: the bench found no whole record there and ended; " + at_offset(script, int(line[4:]))
    if not event:
        return f"`{line}` is one line more than the script has events"
    expected = "image" if event.kind == "image" else f"{event.kind} .."
    return f"`{line}` stands where `{expected}` was expected, for line {event.line} of the script, `{shortened(event.text)}`"


def at_offset(script, offset):
    """What this script has at an offset of its records."""
    begin = 0
    for event in script.events:
        end = begin + len(event.record())
        if offset < end:
            return f"this script has a whole record from {begin} to {end - 1}, of line {event.line}, `{shortened(event.text)}`"
        begin = end
    return f"this script's records are {begin} bytes, and something stood behind them"


def shortened(text):
    return text if len(text) <= WIDEST else text[: WIDEST - 3] + "..."
