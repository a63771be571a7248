"""The words of one line of a script, taken from the left: names, numbers, modes and bytes."""
import os
import re


class Fault(Exception):
    """What is wrong with a line, and what was expected."""


def either(choices):
    """`a`, `b` or `c`."""
    quoted = [f"`{choice}`" for choice in choices]
    return " or ".join([", ".join(quoted[:-1]), quoted[-1]]) if len(quoted) > 1 else quoted[0]


class Words:
    def __init__(self, words, folder):
        self.left = list(words)
        self.folder = folder

    def more(self):
        return bool(self.left)

    def next_is(self, *words):
        return self.more() and self.left[0].lower() in words

    def take(self, expected):
        if not self.left:
            raise Fault(f"the line ends where {expected} was expected")
        return self.left.pop(0)

    def choose(self, *choices):
        word = self.take(either(choices))
        if word.lower() not in choices:
            raise Fault(f"`{word}` stands where {either(choices)} was expected")
        return word.lower()

    def end(self):
        if self.left:
            raise Fault(f"`{self.left[0]}` stands where the line should end")

    def number(self, what, top):
        """A decimal number from 0 to `top`."""
        word = self.take(f"{what} 0 to {top}")
        if not re.fullmatch("[0-9]+", word):
            raise Fault(f"`{word}` stands where {what} 0 to {top} was expected, in decimal")
        if int(word) > top:
            raise Fault(f"{what} {word} does not exist: 0 to {top} expected")
        return int(word)

    def hexadecimal(self, what, digits):
        """A number of up to so many hexadecimal digits."""
        expected = f"{what} of 1 to {digits} hexadecimal digits"
        word = self.take(expected)
        if not re.fullmatch(f"[0-9A-Fa-f]{{1,{digits}}}", word):
            raise Fault(f"`{word}` stands where {expected} was expected")
        return int(word, 16)

    def mode(self, allowed, shown):
        """A mode of the command's stated shape, in hexadecimal."""
        word = self.take(f"a mode ({shown})")
        if not re.fullmatch("[0-9A-Fa-f]{1,2}", word):
            raise Fault(f"`{word}` stands where a mode ({shown}) was expected, in hexadecimal")
        if int(word, 16) not in allowed:
            raise Fault(f"mode {word} is outside the command's shape: {shown} expected (`command` sends any fields)")
        return int(word, 16)

    def bytes(self, what, length=None, until=()):
        """The bytes up to a word of `until` or the end of the line; any number of them where `length` is None."""
        wanted = "bytes" if length is None else "1 byte" if length == 1 else f"{length} bytes"
        if not self.more() or self.next_is(*until):
            raise Fault(f"{what} is missing: {wanted} expected, in hexadecimal")
        parts, filler = [], None
        while self.more() and not self.next_is(*until):
            word = self.left.pop(0)
            if word.endswith("..") and not word.startswith("file:"):
                if length is None:
                    raise Fault(f"`{word}`: there is no fixed length to fill here; a number expected, as 11*20")
                if filler is not None:
                    raise Fault(f"`{word}`: only one `..` can fill what is left")
                filler = len(parts)
            parts.append(self.part(word, until))
        if filler is not None:
            others = sum(map(len, parts)) - len(parts[filler])
            parts[filler] = filled(parts[filler], length - others)
        row = b"".join(parts)
        if length is not None and len(row) != length:
            raise Fault(f"{what} has {len(row)} byte{'s' * (len(row) != 1)}, {length} expected")
        return row

    def part(self, word, until):
        """0011AA, 11*20, the 11 of `11..`, or file:NAME."""
        if word.startswith("file:"):
            return self.file(word[5:])
        found = re.fullmatch(r"([0-9A-Fa-f]+)(?:\.\.|\*([0-9]{1,5}))?", word)
        if not found:
            after = f", or {either(until)}" if until else ""
            raise Fault(f"`{word}` stands where bytes were expected, as 0011AA, 11.., 11*20 or file:NAME{after}")
        digits, times = found.groups()
        if len(digits) % 2:
            raise Fault(f"`{word}`: bytes have two hexadecimal digits each, and these are {len(digits)}")
        return bytes.fromhex(digits) * int(times or 1)

    def file(self, name):
        """A file's bytes; a name is looked for from the script's folder."""
        try:
            with open(os.path.join(self.folder, name), "rb") as file:
                return file.read()
        except OSError as error:
            raise Fault(f"the file `{name}` cannot be read: {error.strerror}") from None


def filled(group, room):
    """The group again and again, over all of the room."""
    shown = group.hex().upper() + ".."
    if room <= 0:
        raise Fault(f"`{shown}`: the other bytes fill the field already")
    if room % len(group):
        raise Fault(f"`{shown}`: {len(group)} bytes again and again do not end at {room}")
    return group * (room // len(group))
