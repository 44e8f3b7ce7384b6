#!/usr/bin/env python3
"""Prints every step of one CORDIC pass: the same requests, options and layout as the program trace, written from docs/TRACE.md."""

import re
import sys
from dataclasses import dataclass

sys.dont_write_bytecode = True

import cordic

HELP = """\
trace: every step of one CORDIC pass

usage: trace [options] SYSTEM MODE X Y Z

  SYSTEM           linear, circular or hyperbolic
  MODE             rotation or vectoring
  X Y Z            the registers to load: raw decimals, 1 means 2^-28

  --stage KIND     the stage to run on: parallel (the default) or bit-serial
  --probe          put a probe around the stage and print what it holds
  --help, -h       print this text

With no arguments the first line of standard input is read in their place.

example: trace linear rotation 268435456 0 134217728
"""
SENTENCES = {
    5: "no choice of directions brings z within one unit of zero",
    6: "vectoring cannot start from this x and y",
    7: "a register would leave the word",
}
WIDTHS = (6, 5, 9, 1, 1, 11, 8, 12)
HEADS = ("step", "shift", "entry", "d", "", "raw", "hex", "value")
PLACES = 9


# --- request ------------------------------------------------------------------------------------------------------------------------


class Unreadable(Exception):
    """A request that cannot be read; the text says what is wrong."""


@dataclass
class Request:
    stage: str = "parallel"
    probe: bool = False
    system: str | None = None
    mode: str | None = None
    start: tuple = ()


def listed(names):
    return f"({', '.join(names)})"


@dataclass(frozen=True)
class Place:
    """One thing that a request has to name, with what may stand there; read gives None for a word that may not."""

    name: str
    allowed: str
    read: object

    def take(self, word):
        found = self.read(word)
        if found is None:
            raise Unreadable(f"'{word}' is no {self.name} {self.allowed}")
        return found

    def missing(self):
        return Unreadable(f"no {self.name} is given {self.allowed}")


def one_of(name, names):
    return Place(name, listed(names), lambda word: word if word in names else None)


def number(word):
    found = re.fullmatch("([+-]?)0*([0-9]{1,10})", word)
    if found is None or not cordic.is_word(int(found[1] + found[2])):
        return None
    return int(found[1] + found[2])


STAGE = one_of("stage", tuple(cordic.STAGES))
WORDS = (
    one_of("coordinate system", cordic.SYSTEMS),
    one_of("mode", cordic.MODES),
    *(Place(f"number for {register}", f"({cordic.LEAST} to {cordic.MOST})", number) for register in cordic.REGISTERS),
)


def read_request(words):
    """The request, or Unreadable for the first word that is wrong from the left, and after that for what is missing."""
    request, found = Request(), []
    words = iter(words)
    for word in words:
        if word == "--stage":
            kind = next(words, None)
            if kind is None:
                raise STAGE.missing()
            request.stage = STAGE.take(kind)
        elif word == "--probe":
            request.probe = True
        elif word.startswith("--"):
            raise Unreadable(f"'{word}' is no option {listed(('--stage', '--probe', '--help'))}")
        elif len(found) == len(WORDS):
            raise Unreadable(f"'{word}' is one word too many (SYSTEM MODE X Y Z)")
        else:
            found.append(WORDS[len(found)].take(word))
    if len(found) < len(WORDS):
        raise WORDS[len(found)].missing()
    request.system, request.mode, *start = found
    request.start = tuple(start)
    return request


# --- printout -----------------------------------------------------------------------------------------------------------------------


def value(raw):
    """raw / 2^28 with nine places, to nearest, ties away from zero."""
    units = (2 * abs(raw) * 10**PLACES + 2**28) // 2**29
    return f"{'-' if raw < 0 else ''}{units // 10**PLACES}.{units % 10**PLACES:0{PLACES}}"


def row(cells):
    return "  ".join(str(cell).rjust(width) for cell, width in zip(cells, WIDTHS)).rstrip()


def triple_rows(marks, triple):
    """Three rows, with the first four cells of the first one given."""
    for register, raw in zip(cordic.REGISTERS, triple):
        yield row((*marks, register, raw, f"{raw % 2**cordic.BITS:08x}", value(raw)))
        marks = ("",) * 4


def named_rows(name, triple):
    return triple_rows((name.ljust(WIDTHS[0]), "", "", ""), triple)


def labelled(label, text):
    return f"{label:<10}{text}"


def ending(request, taken, refusal, stage):
    if refusal is None:
        yield from named_rows("result", stage.read())
        yield labelled("steps", len(taken))
        yield labelled("ticks", len(taken) * stage.ticks)
        return
    yield f"refused with {refusal.number}: {SENTENCES[refusal.number]}"
    yield labelled("system", request.system)
    yield labelled("mode", request.mode)
    yield labelled("steps", f"{refusal.steps} accepted before")
    if refusal.number == 7:
        yield labelled("step", f"{refusal.step} refused")
        yield labelled("register", refusal.register)
        yield from named_rows("kept", refusal.kept)


def printout(request, taken, refusal, stage):
    yield f"{request.system} {request.mode} on the {request.stage} stage{' under a probe' if request.probe else ''}"
    yield ""
    yield row(HEADS)
    yield from named_rows("start", request.start)
    for at, step in enumerate(taken, 1):
        yield from triple_rows((at, step.shift, step.entry, "+" if step.direction > 0 else "-"), step.after)
    yield ""
    yield from ending(request, taken, refusal, stage)
    if request.probe:
        yield ""
        yield "probe"
        yield labelled("accepted", stage.accepted)
        if stage.before is None:
            yield labelled("before", "none")
        else:
            yield from named_rows("before", stage.before)


def answer(words):
    """All that is printed on standard output for the words of a request."""
    if "--help" in words or "-h" in words:
        return HELP
    request = read_request(words)
    stage = cordic.STAGES[request.stage]()
    if request.probe:
        stage = cordic.Probe(stage)
    taken, refusal = cordic.run(request.system, request.mode, request.start, stage)
    return "".join(line + "\n" for line in printout(request, taken, refusal, stage))


def main():
    words = sys.argv[1:] or sys.stdin.readline().split()
    try:
        text = answer(words)
    except Unreadable as wrong:
        print(f"Error: {wrong}; see --help", file=sys.stderr)
        return 1
    sys.stdout.write(text)
    return 0


if __name__ == "__main__":
    sys.exit(main())
