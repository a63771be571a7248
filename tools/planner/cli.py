"""The command line: tools/plan records, explain and show."""
import argparse
import os
import sys

from planner import show, texts
from planner.explain import Explanation
from planner.script import read_script

MOST_FAULTS = 20


class Refused(Exception):
    """The command ends with this message and status 2, and prints nothing else."""


def main(arguments):
    parser = parser_of_verbs()
    options = parser.parse_args(arguments)
    try:
        return options.verb(options)
    except Refused as refused:
        print(refused, file=sys.stderr)
        return 2
    except BrokenPipeError:
        # whoever read the output has seen enough; nothing is left to be flushed at the end
        os.dup2(os.open(os.devnull, os.O_WRONLY), sys.stdout.fileno())
        return 1


def parser_of_verbs():
    raw = argparse.RawDescriptionHelpFormatter
    parser = argparse.ArgumentParser(prog="plan", formatter_class=raw, description=texts.PLAN, epilog=texts.SCRIPT)
    verbs = parser.add_subparsers(metavar="VERB", required=True)

    records = verbs.add_parser("records", help="make the bench's records from a script", formatter_class=raw,
                               description=texts.RECORDS, epilog=texts.SCRIPT)
    records.add_argument("script", metavar="SCRIPT", help="a file, or - for standard input")
    records.set_defaults(verb=make_records)

    explain = verbs.add_parser("explain", help="say what the bench's lines mean", formatter_class=raw, description=texts.EXPLAIN)
    explain.add_argument("script", metavar="SCRIPT", help="the script that the records were made from")
    explain.add_argument("lines", metavar="LINES", help="what the bench printed: a file, or - for standard input")
    explain.set_defaults(verb=explain_lines)

    shows = verbs.add_parser("show", help="write a file of records as a script", formatter_class=raw, description=texts.SHOW)
    shows.add_argument("records", metavar="RECORDS", help="a file, or - for standard input")
    shows.set_defaults(verb=show_records)
    return parser


def make_records(options):
    script = load(options.script)
    if sys.stdout.isatty():
        raise Refused("plan: records are no text: send them to a file, plan records SCRIPT > OUT, or to the bench")
    sys.stdout.buffer.write(script.records())
    sys.stdout.flush()
    return 0


def explain_lines(options):
    if options.script == options.lines == "-":
        raise Refused("plan: script and lines cannot both be standard input")
    script = load(options.script)
    lines = text_of(options.lines).split("\n")
    explanation = Explanation()
    explanation.run(script, [line.rstrip("\r") for line in lines[: -1 if lines[-1] == "" else None]])
    for line in explanation.text:
        print(line)
    sys.stdout.flush()
    for number, complaint in explanation.complaints:
        where = shown_name(options.lines) + ("" if number is None else f":{number}")
        print(f"{where}: {complaint}", file=sys.stderr)
    return 1 if explanation.complaints else 0


def show_records(options):
    try:
        lines = show.shown(bytes_of(options.records))
    except show.NoRecords as wrong:
        raise Refused(f"{shown_name(options.records)}: {wrong}") from None
    for line in lines:
        print(line)
    sys.stdout.flush()
    return 0


def load(name):
    """The script of that name, if nothing is wrong with it."""
    folder = "." if name == "-" else os.path.dirname(name)
    script, faults = read_script(text_of(name), folder)
    messages = [f"{shown_name(name)}:{line}: {fault}" for line, fault in faults[:MOST_FAULTS]]
    if len(faults) > MOST_FAULTS:
        messages.append(f"{shown_name(name)}: {len(faults) - MOST_FAULTS} more lines are wrong")
    if messages:
        raise Refused("\n".join(messages))
    return script


def text_of(name):
    try:
        return bytes_of(name).decode("utf-8-sig")
    except UnicodeDecodeError:
        raise Refused(f"{shown_name(name)}: no text: a text in UTF-8 expected") from None


def bytes_of(name):
    if name == "-":
        return sys.stdin.buffer.read()
    try:
        with open(name, "rb") as file:
            return file.read()
    except OSError as error:
        raise Refused(f"{name}: cannot be read: {error.strerror}") from None


def shown_name(name):
    return "standard input" if name == "-" else name
