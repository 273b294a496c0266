"""Hostile texts for the list of commands: each asks much of a reader of grammars, or stands at one of its limits, and is answered soon."""

import functools

LIMIT = 1 << 20
FULL = {  # texts of as many bytes as a grammar may have: what stands first, what is repeated, what stands last
    "comment": ("#", "#", ""),
    "quotes": ("", '"', ""),
    "long-name": ("", "A", '->"";'),
    "zeros": ("S -> ?(", "0", '1) "" ;'),
    "nines": ("S -> ?(", "9", ') "" ;'),
    "hexadecimal": ("S -> ?(0x", "f", ') "" ;'),
    "string": ('S -> "', "a", '" ;'),
    "escapes": ('S -> "', "\\x41", '" ;'),
    "open-string": ('S -> "', "\\x41", ""),
    "backslashes": ('S -> "', "\\", ""),
    "blanks": ("S", " ", '-> "" ;'),
    "lines": ("S", "\n", '-> "" ;'),
    "returns": ("S", "\r", '-> "" ;'),
    "zero-bytes": ("S -> ", "\0", ""),
    "not-ascii": ("S -> ", "\xff", ""),
    "alternatives": ('S->""', '/""', ";"),
    "terms": ("S->", '""', ";"),
    "braces": ("S -> ", "{", ""),
    "brackets": ("S -> U8", "[", ""),
    "wheres": ("S -> U8 ", "where { T -> U8 ", ""),
    "switches": ("S -> ", "switch { case (", ""),
    "arrays": ("S -> ", "for i = 0 to 1 do ", ""),
    "repetitions": ("S -> ", "many ", "U8 ;"),
    "arrows": ("", "->", ""),
    "semicolons": ("", ";", ""),
    "dots": ("S -> {a = b", ".b", "} ;"),
    "slashes": ("S ->", "/", ";"),
    "attributes": ("S -> ", "{a = 1} ", ";"),
    "same-rule": ("", 'S -> "" ;', ""),
    "conditions": ("S -> ", "?(1)", '"" ;'),
}


def joined(count, unit):
    return "".join(unit % {"k": k, "next": k + 1, "round": (k + 1) % count} for k in range(count))


def limits():
    """Texts at a limit, and one past it."""
    for more in (0, 1):
        yield f"rules-{1024 + more}", joined(1023 + more, "R%(k)d -> R%(next)d[1, EOI] / U8 ;") + f'R{1023 + more} -> "" ;'
        yield f"alternatives-{64 + more}", "S -> " + " / ".join(["U8"] * (64 + more)) + " ;"
        yield f"terms-{256 + more}", "S -> " + "U8 " * (256 + more) + ";"
        yield f"attributes-{256 + more}", "S -> " + joined(256 + more, "{a%(k)d = 1} ") + ";"
    yield "a-ring-of-1024", joined(1024, 'R%(k)d -> U8 R%(round)d / "" ;')
    yield "attributes-in-reverse", "S -> " + joined(255, "{a%(k)d = a%(next)d} ") + "{a255 = 1} ;"
    yield "attributes-in-a-ring", "S -> " + joined(256, "{a%(k)d = a%(round)d} ") + ";"
    yield "conditionals", "S -> ?(" + functools.reduce(lambda inner, k: f"({inner} ? EOI > {k} : EOI < {k + 3})", range(8), "EOI > 9") + ') S[1, EOI] / "" ;'


def texts():
    """Pairs of a name and bytes."""
    for name, (first, unit, last) in FULL.items():
        yield f"full-{name}", (first + unit * ((LIMIT - len(first + last)) // len(unit)) + last).encode("latin-1")
    for name, text in limits():
        yield name, text.encode()
    yield "too-long", b"#" * (LIMIT + 1)
