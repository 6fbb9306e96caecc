"""Broken books and lines, made of whole ones by bytes and by tokens."""
from smoke.language import KEYWORDS, tokens

PIECES = [word.encode() for word in sorted(KEYWORDS)] + [
    b",", b"(", b")", b"{", b"}", b"|", b"=", b"!=", b"<", b"<=", b">", b">=", b"==", b"<>", b";", b"--", b"'x'", b"*", b"+", b".", b"!", b"-",
    b"0", b"1", b"-1", b"-0", b"007", b"10", b"16", b"64", b"4294967295", b"4294967296", b"9223372036854775807", b"9223372036854775808",
    b"-9223372036854775808", b"-9223372036854775809", b"99999999999999999999999", b'"x"', b'""', b'"a""b"', b'"a""b', b'"', b"`x`", b"`card no`",
    b"``", b"`", b"`a", b"#", b"# c\n", b"\n", b"\r\n", b"\t", b" ", b"a", b"b", b"k", b"n", b"t", b"u", b"v", b"w", b"id", b"region", b"amount",
    b"sales", b"least", b"most", b"a" * 64, b"a" * 65, b"`" + b"b" * 64 + b"`", b"`" + b"b" * 65 + b"`", b"\xc3\xa9", b"\xff", b"\xef\xbb\xbf",
    b"\x00", b"| where a = 1", b"| group", b"| group {n = count}", b"| project a", b"| project a as b, b as a", b"| distinct a",
    b"| join scan t on a = a", b"| union all scan t", b"| union scan t", b"| product scan t", b"| theta scan t on a = b", b"not ", b"not (",
    b"{n = count}", b"{a = sum a, b = min b}", b"bin(a, 0) as b", b"bin(a, 10) as b", b"| group a {a = sum b} | group {b = sum a} | group {c = sum b}"]


def spans_of(text):
    """The places at which the tokens of a text begin and end."""
    return [(token.at, max(token.end, token.at + 1)) for token in tokens(text)[:-1]]


def by_bytes(chance, text):
    at, other = chance.randrange(len(text) + 1), chance.randrange(len(text) + 1)
    way = chance.randrange(6)
    if way == 0:
        return text[:at]
    if way == 1:
        return text[:at] + text[at + 1:]
    if way == 2:
        return text[:at] + chance.choice(PIECES) + text[at:]
    if way == 3:
        return text[:at] + bytes([chance.choice(b"\"`'#-!;.,()|=<>{}\n\r \x00\xff0aA_")]) + text[at + 1:]
    if way == 4:
        return text[:min(at, other)] + text[max(at, other):] if abs(at - other) < 60 else text[:at] + text[at + 3:]
    piece = text[at:at + chance.randrange(1, 40)]
    return text[:other] + piece + text[other:]


def by_tokens(chance, text):
    spans = spans_of(text)
    if not spans:
        return text + chance.choice(PIECES)
    at, end = chance.choice(spans)
    start, stop = chance.choice(spans)
    way = chance.randrange(7)
    if way == 0:
        return text[:at] + text[end:]
    if way == 1:
        return text[:at] + text[start:stop] + text[end:]
    if way == 2:
        return text[:at] + text[start:stop] + b" " + text[at:]
    if way == 3:
        return text[:at] + chance.choice(PIECES) + text[end:]
    if way == 4:
        return text[:at] + chance.choice(PIECES) + b" " + text[at:]
    if way == 5:
        if (at, end) > (start, stop):
            at, end, start, stop = start, stop, at, end
        return text[:at] + text[start:stop] + text[end:start] + text[at:end] + text[stop:] if end <= start else text
    if abs(at - start) > 80:
        return text[:at] + text[start:stop] + text[end:]
    return text[:min(at, start)] + text[max(end, stop):]


def broken(chance, text):
    """A text that differs from a text in one to three places."""
    for _ in range(chance.choice((1, 1, 2, 3))):
        text = chance.choice((by_bytes, by_tokens, by_tokens))(chance, text)
    return text
