#!/usr/bin/env python3
"""The cases of lexis_cases and what is expected of them, from document 01's words under 'The text' and 'units of time'.

Run by hand, and not by the gate:  python3 crates/lexis_cases/reference.py  (Python 3.9 or later)
It writes the files stdin and stdout beside itself. It shares no code with the product: it scans by regular
expressions and computes with integers of any size. The 97 reserved words of IEEE Std 1076-1993 are typed anew; GHDL
with --std=93 takes none of them as a name. The order of the rows is taken over: the words of the subset, then the
other reserved words by the alphabet, then 108 for a name.

A case is a letter, four digits for the length of its text, LF, the text, and LF:
  t  the tokens of the text, each as PLACE+LENGTH KIND, then `end` or `refused PLACE`
  u  an amount, a space, a unit: the femtoseconds, or `too long`, or `no unit`
  s  two words with a space between: `same` or `different`
"""
import pathlib
import random
import re

SEED = 1993

# ---- the rules

RESERVED = """
abs access after alias all and architecture array assert attribute
begin block body buffer bus
case component configuration constant
disconnect downto
else elsif end entity exit
file for function
generate generic group guarded
if impure in inertial inout is
label library linkage literal loop
map mod
nand new next nor not null
of on open or others out
package port postponed procedure process pure
range record register reject rem report return rol ror
select severity shared signal sla sll sra srl subtype
then to transport type
unaffected units until use
variable
wait when while with
xnor xor
""".split()

SUBSET = """
entity is end architecture of signal begin boolean process transport after if then else null not
nand nor and or xor xnor true false fs ps ns us ms sec min hr
""".split()

VOCABULARY = SUBSET + sorted(set(RESERVED) - set(SUBSET))
assert len(RESERVED) == len(set(RESERVED)) == 97 and len(VOCABULARY) == 108

SECOND = 10**15
UNITS = {"fs": 1, "ps": 10**3, "ns": 10**6, "us": 10**9, "ms": 10**12, "sec": SECOND, "min": 60 * SECOND, "hr": 3600 * SECOND}
LARGEST = 10**18

# a comment goes up to a line end, the end of the text, or a byte that is refused even there
BLANKS = re.compile(rb"([ \t\n\v\f\r]|--[^\n\v\f\r\x80-\xff]*)*")
RUN = re.compile(rb"[A-Za-z0-9_]+")
WORD = re.compile(rb"[A-Za-z](_?[A-Za-z0-9])*")
INTEGER = re.compile(rb"[0-9]+")
MARK = re.compile(rb"<=|:=|[(),:;]")
MARKS = {b"(": "open", b")": "close", b",": "comma", b":": "colon", b";": "semicolon", b"<=": "arrow", b":=": "becomes"}


def row(word):
    word = word.decode("ascii").lower()
    return VOCABULARY.index(word) if word in VOCABULARY else 108


def kind(run):
    """The kind of a run of letters, digits and underscores, or None."""
    if INTEGER.fullmatch(run):
        return "integer %d" % int(run) if int(run) <= LARGEST else "integer large"
    if WORD.fullmatch(run) and len(run) <= 32:
        return "word %d" % row(run)


def tokens(text):
    parts, place = [], 0
    while True:
        place = BLANKS.match(text, place).end()
        if place == len(text):
            return "; ".join(parts + ["end"])
        found = RUN.match(text, place) or MARK.match(text, place)
        name = found and (MARKS.get(found[0]) or kind(found[0]))
        if not name:
            return "; ".join(parts + ["refused %d" % place])
        parts.append("%d+%d %s" % (place, len(found[0]), name))
        place = found.end()


def delay(text):
    amount, unit = text.decode("ascii").split(" ", 1)
    if unit.lower() not in UNITS:
        return "no unit"
    time = int(amount) * UNITS[unit.lower()]
    return "%d" % time if time <= LARGEST else "too long"


def same(text):
    one, other = text.split(b" ", 1)
    return "same" if one.lower() == other.lower() else "different"  # bytes.lower() is of ASCII


# ---- the cases

CASE_A = b"""entity pair is end;
architecture a of pair is
  signal q, d : boolean;
begin
  process (q) begin q <= transport not q after 3 ns; end process;
  process (q) begin d <= transport not q; end process;
end;
"""

LETTERS_AND_DIGITS = b"abcdefghijklmnopqrstuvwxyzABCDEFGHIJKLMNOPQRSTUVWXYZ0123456789"
COMMENT_ENDS = [b"\n", b"\v", b"\f", b"\r"]


def single_bytes():
    accepted = LETTERS_AND_DIGITS + b" \t\n\v\f\r(),:;"
    yield b" ".join(bytes([b]) for b in accepted)
    for b in range(128):
        if b not in accepted:
            yield b"a %c" % b
    for b in (128, 129, 133, 159, 160, 191, 192, 193, 223, 224, 239, 240, 247, 254, 255):
        yield b"a %c" % b


def blanks_and_comments():
    yield from (b"", b" \t\n\v\f\r", b" \t\n\v\f\ra\r\f\v\n\t ", b"  a  ")
    yield from (b"a%sb" % blank for blank in (b" ", b"\t", *COMMENT_ENDS))
    for end in COMMENT_ENDS:
        yield from (b"a--b%sc" % end, b"--%s" % end, b"--%s-" % end, b"a --b -- c%s--d%se" % (end, end))
        yield from (b"--b%s\x80" % end, b"--b\x80%sc" % end, b"-%s-" % end)
    yield from (b"--", b"a--", b"a --", b"---", b"----", b"-", b"a-", b"-a", b"- -", b"a - b", b"-->", b"a---b\nc", b"--a\r\nb")
    yield from (b"a--b c\td\x1c\x1d\x1e\x1fe", b"(--)\n)", b":--=\n=", b"<--\n=", b"ab--cd\nef", b"12--3\n4", b"a_--\n", b"-- \"'%#\nx")
    yield b"--" + bytes(b for b in range(128) if b not in b"\n\v\f\r")
    yield b"--" + bytes(range(256))
    yield from (b"--\x80", b"a--\x80", b"a -- \xff", b"-\x80", b"a--b\n\x80", b"_a --\x80", b"a --\x80 _b", b"--\xc3\xa9", b"--\x7f\x80")


def high_bytes():
    yield from (b"\x80", b"a\x80", b"ab\x80cd", b"a_\x80", b"a_b\xff", b"1\x80", b"1a\x80", b"_\x80", b";\x80", b":\x80", b":\x80=", b"<\x80", b"<=\x80")
    yield from (b"a b_ \xff", b"a b\xff _", b"a" * 32 + b"\x80", b"a" * 33 + b"\x80", b"a\xc2\xa0b", b"\xef\xbb\xbfentity")


def runs():
    yield from (b"_", b"__", b"_a", b"a_", b"a__b", b"a_b", b"a_b_c", b"a_1", b"a1_2b", b"1_a", b"1_0", b"1_", b"_1", b"a_b__c", b"a_b_", b"a_ b", b"a _b", b"a_-b")
    yield from (b"3ns", b"3 ns", b"ns3", b"1e3", b"1.5", b"16#ff#", b"a1", b"1a", b"a.b", b"a'b", b"\"a\"", b"x;y_;z")
    for n in (31, 32, 33, 34, 64, 200):
        yield from (b"a" * n, b"7" * n, b"1" + b"a" * (n - 1), b"a" * (n - 1) + b"1")
    for n in (31, 32, 33):
        yield from (b"a" * (n - 1) + b"_", b"a_" + b"b" * (n - 2), b"a" + b"_b" * ((n - 1) // 2), b"x " + b"Z" * n + b";y", b"-" * 2 + b"a" * n)


def integers():
    edges = [0, 1, 9, 10, 255, 65536, 2**32, 2**63, 2**64 - 1, 2**64, 2**64 + 1, 10 * 2**64, 10 * 2**64 + 1, 2**64 // 10 + 1]
    edges += [LARGEST - 1, LARGEST, LARGEST + 1, LARGEST + 9, 10 * LARGEST, 10 * LARGEST - 1, LARGEST // 10 + 1, 9 * 10**17]
    yield b" ".join(b"%d" % n for n in edges)
    yield b";".join(b"000%d" % n for n in edges)
    for zeros in (20, 300):
        for n in (0, 5, LARGEST, LARGEST + 1, 2**64):
            yield b"%s%d" % (b"0" * zeros, n)
    yield from (b"9" * 200, b"1" + b"0" * 300, b"1" * 400, b"%d" % 2**900, b"0" * 500, b"%d_" % LARGEST, b"(%d)" % LARGEST)


def marks():
    yield from (b"()", b",", b":", b";", b"<=", b":=", b"(),:;<=:=", b": =", b":=:", b"::=", b":==", b"<==", b"<<=", b"<=<=", b"< =", b"<", b"=", b"a<b")
    yield from (b"a<=b", b"a=b", b"p:=", b":<=", b"<=:=", b"=<", b"=>", b">=", b"/=", b"a:b", b"a:=b", b"((,))", b":\n=", b"<\n=", b"<", b"a <", b"a :", b"a =")


def vocabulary(chance):
    def forms(word):
        n = chance.randrange(1, len(word))
        mixed = "".join(chance.choice((c, c.upper())) for c in word)
        return [word, word.upper(), mixed, word + "s", word + "1", word[:n] + "_" + word[n:], word[:-1], word[0] + "0" + word[1:], word + word]

    for i in range(0, 108, 4):
        yield " ".join(form for word in VOCABULARY[i : i + 4] for form in forms(word)).encode()
    yield b"ifs if1 i_f iff fi iF configurations configuration1 confifuration architectural b00lean ent1ty a1 z1 z_1 xnors unit second minute hour time bit"
    yield b" ".join(b"z" * n for n in range(1, 33)) + b" " + b"zZ" * 6 + b"9"


FRAGMENTS = [w.encode() for w in VOCABULARY] + [b"%d" % n for n in (0, 3, 17, 10**18, 10**19)] + [
    b"q", b"Clk", b"a_b", b"x1", b"a_", b"_b", b"a__b", b"3ns", b"(", b")", b",", b":", b";", b"<=", b":=", b"<", b"=", b"-", b"--", b"-- note",
    b" ", b"\t", b"\n", b"\v", b"\f", b"\r", b"\r\n", b"\x80", b"\xff", b"\x00", b"\x7f", b"'", b"&", b"L" * 32]


def random_texts(chance):
    for _ in range(20):
        yield chance.randbytes(chance.randrange(1, 40))
    for _ in range(20):
        yield bytes(chance.choice(b"aZ09__ --\n:=<(;\x80") for _ in range(chance.randrange(1, 24)))
    for _ in range(50):
        fair = FRAGMENTS[:-14] if chance.random() < 0.6 else FRAGMENTS
        glue = chance.choice((b"", b" ", b" ", b"\n"))
        yield glue.join(chance.choice(fair) for _ in range(chance.randrange(2, 24)))
    for _ in range(12):
        broken = bytearray(CASE_A)
        for _ in range(chance.randrange(1, 4)):
            broken[chance.randrange(len(broken))] = chance.choice(b"_-\n \x80a9:=<")
        yield bytes(broken)


def delays():
    for unit, size in UNITS.items():
        yield from ("%d %s" % (n, unit.title()) for n in (0, 1, LARGEST // size, LARGEST // size + 1, 2**64 // size + 1))
    yield from ("3 ns", "1000 sec", "1001 sec", "16 min", "17 min", "1000 SEC", "0 hR", "%s hr" % ("0" * 200), "%s1 min" % ("0" * 200))
    yield from ("%d fs" % (LARGEST * 10**n + 1) for n in (0, 1, 300))
    yield from ("1 " + word for word in ("n", "nss", "entity", "secs", "hour", "boolean", "true", "to"))


def pairs(chance):
    yield from (b"a a", b"a A", b"Z z", b"a b", b"ab aB", b"ab abc", b"abc ab", b"a_b A_B", b"a_b a_c", b"a1 A1", b"a1 a2", b" ", b"a ", b" a")
    yield from (b"@ `", b"[ {", b"] }", b"^ ~", b"_ \x7f", b"0 P", b"1 \x11", b"A \x01", b"\xc0 \xe0", b"\xe0 \xe0", b"aa\x80 AA\x80")
    yield from (b"x" * 32 + b" " + b"X" * 32, b"x" * 32 + b" " + b"X" * 31 + b"y", b"x" * 31 + b" " + b"x" * 32)
    for _ in range(12):
        word = bytes(chance.choice(LETTERS_AND_DIGITS + b"_") for _ in range(chance.randrange(1, 33)))
        other = bytearray(word.swapcase())
        if chance.random() < 0.5:
            other[chance.randrange(len(other))] ^= chance.choice((1, 32))
        yield word + b" " + bytes(other)


def cases():
    chance = random.Random(SEED)
    texts = [CASE_A, *single_bytes(), *blanks_and_comments(), *high_bytes(), *runs(), *integers(), *marks()]
    texts += [*vocabulary(chance), *random_texts(chance)]
    yield from ((b"t", text, tokens(text)) for text in texts)
    yield from ((b"u", text.encode(), delay(text.encode())) for text in delays())
    yield from ((b"s", text, same(text)) for text in pairs(chance))


def main():
    made = list(cases())
    here = pathlib.Path(__file__).parent
    (here / "stdin").write_bytes(b"".join(b"%s%04d\n%s\n" % (letter, len(text), text) for letter, text, _ in made))
    (here / "stdout").write_text("".join(line + "\n" for _, _, line in made))
    print("%d cases, %d bytes, seed %d" % (len(made), (here / "stdin").stat().st_size, SEED))


main()
