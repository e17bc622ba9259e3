"""The rules of a channel as crates/x25_possible/specs/Channel.antt has them, read from its text,
beside those of rules.py: for each phase and packet, where an end is then."""

import re
import unittest
from itertools import product

from support import ROOT

import rules
from rules import Channel, Layer, Packet
from runs import RNR, RR

WORD = re.compile(r"[A-Za-z_][\w.]*|\d+|==|&&|\|\||[-+%(){};=]")
OPERATORS = {"||": "or", "&&": "and", "==": "==", "+": "+", "-": "-", "%": "%"}
KNOWN = {
    "nat_le": lambda a, b: a <= b,
    "nat_lt": lambda a, b: a < b,
    "not": lambda a: not a,
    "true": lambda: True,
    "false": lambda: False,
}


class Definition:
    """Functions by their clauses, as Python. A variant is a tuple of its name and what it holds, a
    record is a dictionary."""

    def __init__(self, text):
        self.clauses = {}
        for clause in re.split(r"\n(?=[a-z])", re.sub(r"--.*", "", text)):
            if (
                not re.match("use|abbrev", clause)
                and not re.search(r"[λ∷:[]", clause)
                and "=" in clause
            ):
                words = WORD.findall(clause)
                cut = words.index("=")
                body = Body(words[cut + 1 :], words[1:cut]).expression()
                self.clauses.setdefault(words[0], []).append((
                    patterns(words[1:cut]), compile(body, words[0], "eval")
                ))

    def of(self, name, *values):
        if name[0].isupper():
            return (name, *values)
        if name in KNOWN:
            return KNOWN[name](*values)
        for heads, body in self.clauses[name]:
            names = {}
            if all(fits(head, value, names) for head, value in zip(heads, values)):
                return eval(body, {"of": self.of}, names)
        raise LookupError(f"{name} has no clause for {values}")


def patterns(words):
    """Each a name, a variant, or a list of a variant and what it holds."""
    found = []
    while words:
        end = words.index(")") if words[0] == "(" else 0
        found.append(words[1:end] if end else words[0])
        words = words[end + 1 :]
    return found


def fits(head, value, names):
    """Whether a value has this form; what stands for its parts is put into `names`."""
    if isinstance(head, list):
        return (
            value[0] == head[0]
            and all(fits(part, held, names) for part, held in zip(head[1:], value[1:]))
        )
    if head in KNOWN:
        return value == KNOWN[head]()
    if head[0].isupper():
        return value[0] == head
    names[head] = value
    return True


class Body:
    """Reads an expression from its words as Python, in which `of` applies a function of the
    definition; it knows the names in front of it."""

    def __init__(self, words, names):
        self.words, self.names = words, names

    def expression(self):
        if self.words[0] == "if":
            self.words.pop(0)
            test, _, yes, _, no = (
                self.expression(),
                self.words.pop(0),
                self.expression(),
                self.words.pop(0),
                self.expression(),
            )
            return f"({yes} if {test} else {no})"
        text = self.call()
        while self.words and self.words[0] in OPERATORS:
            text += f" {OPERATORS[self.words.pop(0)]} {self.call()}"
        return text

    def call(self):
        name, first, parts = self.words[0], self.atom(), []
        while (
            self.words
            and re.match(r"[\w(]", self.words[0])
            and self.words[0] not in ("then", "else")
        ):
            parts.append(self.atom())
        return f"of({name!r}, {', '.join(parts)})" if parts else first

    def atom(self):
        word = self.words.pop(0)
        if word == "(":
            text = self.expression()
            assert self.words.pop(0) == ")"
            return f"({text})"
        if word == "record":
            parts = [] if self.words[0] == "{" else [f"**{self.atom()}"]
            while self.words.pop(0) != "}":
                if self.words[0] != "}":
                    name, _ = self.words.pop(0), self.words.pop(0)
                    parts.append(f"{name!r}: {self.expression()}")
            return f"{{{', '.join(parts)}}}"
        name, *fields = word.split(".")
        if name in self.names and name[0].islower():
            return name + "".join(f"[{field!r}]" for field in fields)
        return word if word.isdigit() else f"of({word!r})"


# ---- phases and packets, as the definition has them


def record(names, *rows):
    return [dict(zip(names.split(), row)) for row in rows]


def some(name, value):
    return ("None",) if value is None else ("Some", record(name, value)[0] if name else value)


# A network's packet size and window where a call names none: those that rules.py knows.
(DEFAULTS,) = record("size window", (128, 2))
TERMS = record(
    "defaults calling_size called_size calling_window called_window",
    (DEFAULTS, 128, 128, 2, 2),
    (DEFAULTS, 256, 64, 2, 2),
    (DEFAULTS, 16, 512, 4, 1),
)
SIZES, WINDOWS = (None, (128, 128), (256, 64), (64, 256)), (None, (2, 2), (3, 2))
SAID = record(
    "sizes windows",
    *((some("calling called", s), some("calling called", w)) for s in SIZES for w in WINDOWS),
)
LIMITS = record("most window", (128, 2), (64, 3))
NUMBERS = [
    n
    for n in product((0, 3, 10), (0, 3), (0, 2, 9), (0, 2))
    if n[1] <= n[0] <= n[1] + 7 and n[3] <= n[2]
]
REST = product(NUMBERS, (None, True, False), (True, False), (0, 1))
TALKS = record(
    "most window sent acked taken told begun is_out owed",
    *((128, 2, *numbers, some("", q), is_out, owed) for numbers, q, is_out, owed in REST)
)
HELD = {"Calls": TERMS, "WasCalled": TERMS, "Talks": TALKS, "Resets": LIMITS, "WasReset": LIMITS}
PHASES = [(name, held) for name in HELD for held in HELD[name]]
PHASES += [(name,) for name in ("Idle", "Clears", "WasCleared", "Restarts", "WasRestarted")]
KINDS = dict(
    zip(
        "Call Accept Clear ClearConf Reset ResetConf Interrupt InterruptConf Restart "
        "RestartConf".split(),
        rules.KINDS,
    )
)
KINDS.update({"Data": rules.DATA, "Rr": RR, "Rnr": RNR})
DATA = product((True, False), (True, False), range(4), range(4), (9, 129))
PACKETS = [("Call", terms) for terms in TERMS] + [("Accept", said) for said in SAID] + [
    ("Data", *parts) for parts in DATA
]
PACKETS += [(kind, pr) for kind in ("Rr", "Rnr") for pr in range(8)]
PACKETS += [(kind,) for kind in KINDS if kind not in {item[0] for item in PACKETS}]

# ---- as rules.py has them; sizes and windows are those of the called and of the calling end

STANDS = {
    "Idle": rules.IDLE,
    "Calls": rules.CALLS,
    "WasCalled": rules.CALLED,
    "Talks": rules.TALKS,
    "Resets": rules.RESETS,
}
STANDS.update({
    "WasReset": rules.WAS_RESET, "Clears": rules.CLEARS, "WasCleared": rules.WAS_CLEARED
})


def proposed(terms):
    return {
        "sizes": (terms["called_size"], terms["calling_size"]),
        "windows": (terms["called_window"], terms["calling_window"]),
    }


def theirs(phase):
    name, held = phase[0], phase[-1]
    if name in ("Restarts", "WasRestarted"):
        return Layer(rules.RESTARTS if name == "Restarts" else rules.WAS_RESTARTED)
    if name in ("Calls", "WasCalled"):
        parts = proposed(held)
    elif name == "Talks":
        parts = {**held, "q": held["begun"][1] if len(held["begun"]) > 1 else None}
        del parts["window"], parts["begun"]
    else:
        parts = {"most": held["most"]} if name in HELD else {}
    return Layer().with_channel(1, Channel(STANDS[name], **parts))


def packet_of(item):
    name, *held = item
    packet = Packet(0 if name.startswith("Restart") else 1, KINDS[name])
    if name == "Call":
        return packet._replace(**proposed(held[0]))
    if name == "Accept":
        both = {
            part: (said[1]["called"], said[1]["calling"])
            for part, said in held[0].items()
            if len(said) > 1
        }
        return packet._replace(**both)
    if name == "Data":
        return packet._replace(**dict(zip(("q", "m", "ps", "pr", "size"), held)))
    return packet._replace(pr=held[0]) if held else packet


def compared(layer):
    """Without the windows and sizes of a call that rules.py doesn't keep in this state."""
    channel = layer.channel(1)
    if channel.stand != rules.CALLED:
        channel = channel._replace(windows=rules.USUAL_WINDOWS)
    return (
        layer.restart,
        channel
        if channel.stand in (rules.CALLS, rules.CALLED)
        else channel._replace(sizes=rules.USUAL),
    )


class Rows(unittest.TestCase):
    @classmethod
    def setUpClass(cls):
        with open(f"{ROOT}/crates/x25_possible/specs/Channel.antt", encoding="utf-8") as file:
            cls.definition = Definition(file.read())

    def agree(self, ours, oracle):
        """In all phases, of all packets; one example is told of each kind of both that differs."""
        differ = {}
        for phase, item in product(PHASES, PACKETS):
            of_text, of_rules = ours(phase, item), oracle(theirs(phase), packet_of(item))
            if (of_text and compared(theirs(of_text))) != (of_rules and compared(of_rules)):
                differ[phase[0], item[0]] = (
                    f"{phase} and {item}: {of_text} by Channel.antt, {of_rules} by rules.py"
                )
        self.assertFalse(differ, "\n".join(["", *differ.values()]))

    def test_taken(self):
        for role in ("Dte", "Dce"):
            self.agree(
                lambda phase, item: self.definition.of("takes", (role,), phase, item),
                lambda layer, packet: layer._replace(way=(packet,)).takes(role == "Dce", 0),
            )

    def test_sent(self):
        def sent(phase, item):
            of = self.definition.of("sends", phase, item)
            return of[1] if of[0] == "Some" else None

        self.agree(sent, lambda layer, packet: layer.sends(packet))


if __name__ == "__main__":
    unittest.main()
