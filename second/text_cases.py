"""Cases of tables as text: good ones in every shape, each fault in every way, and texts that are edited by chance."""

from itertools import cycle, product

from corpus import LONGEST_FIELD, case_of
from rules import DELAYS, LIMITS, NEW_DEFAULT, OLD_DEFAULT, Table
from tables import HOUSE, LARGEST_ENTRY, admitted_table, any_table
from text_coverage import BLANKS, BYTE_ORDER_MARK, BYTES
from texts import NAMES

ENTRIES = range(len(NAMES))
DEFAULTS = OLD_DEFAULT, NEW_DEFAULT, HOUSE
ENDS = b"\n", b"\r\n", b""
# Bytes that are no digits, and words that are no numbers.
ODD_BYTES = (*(bytes((byte,)) for those in BYTES.values() for byte in those), b"a", b"O", b"x", b"e", b"_", b"=", b"!",
             b"\x80", b"\xb2", b"\xff")
NO_NUMBERS = (
    b"", b"5 5", b"5 #5 6", b"5\t5", b"5 5 5", b"5 x", b"x 5", b"x y z", b"+5", b"-5", b"-0", b"0x10", b"0X5", b"10h",
    b"0b1", b"0o7", b"1e3", b"5.", b".5", b"5.0", b"1,500", b"1_500", b"1'500", b"5ms", b"5 ms", b"= 5", b"=5", b":5",
    b"\"5\"", b"0005x", b"99999 1", b"1 99999", b"99999 1 1", b"99999x", b"x99999", b"\xd9\xa5", b"\xef\xbc\x95",
    b"\xc2\xb2", b"5\0", b"\0", b"5\x0b5", b"5\x0c", b"five", b"#5", b"# 5", b"5;", b"Sync_EX",
    b"5\xa0", b"\xa05", b"5 Sync_EX 5",
)
# Numbers that are too large: by one, with their upper bits lost to one that is allowed, and longer ones.
TOO_LARGE = (65_536, 65_537, 65_546, 65_540, 70_000, 99_999, 100_000, 655_350, 999_999, 1_000_005, 2**32, 2**32 + 5,
             2**63, 2**64, 2**64 + 5, 2**64 - 1, 10**19 + 5, 10**29 + 5, 2**128 + 5)
ALLOWED = 0, 1, 9, 10, 99, 100, 255, 256, 9_999, 10_000, 32_767, 32_768, LARGEST_ENTRY - 1, LARGEST_ENTRY
OTHER_WORDS = (
    b"5", b"0", b"65536", b"Channel", b"_DL", b"DL", b"x", b"=", b"-", b"\0", b"\xff", b"Clutch_DL", b"Sync", b"table",
    b"Channel_DL=5", b"Channel_DL:", b"Sync_EX5", b"Sync_EX,Zero_EX", b"Zero_DL_EX", b"Sync_EX\x0b5", b"\"Sync_EX\"",
    b";", b"//", b"Clutch_Open", b"Open_Clutch_DL", b"Error_Clutch_DE", b"\xc2\xa0Sync_EX", b"Sync-EX", b"Change_DL",
    BYTE_ORDER_MARK + b"Sync_EX", BYTE_ORDER_MARK,
)


def case(text):
    """The case of a text."""
    return case_of("text", text)


def line(entry, value):
    """The line of an entry; its value is a number, or the bytes that stand for it."""
    return NAMES[entry] + b" " + (value if isinstance(value, bytes) else b"%d" % value)


def lines_of(table, count=LIMITS):
    """The lines of the first entries of a table."""
    return [line(entry, value) for entry, value in enumerate(table[:count])]


def joined(lines, end=b"\n"):
    """The lines as a text; the end may be missing at its end."""
    return (end or b"\n").join(lines) + end


def shuffled(chance, lines):
    """The lines in another order."""
    return chance.sample(lines, len(lines))


def small_table(chance):
    """A table with short numbers, some of them 0; it need not be admitted."""
    return Table(*(chance.choice((0, 1, 5, 9, 10, 20)) for _ in NAMES))


def blanks(chance, least=0):
    """Some blanks."""
    return b"".join(chance.choice(list(BLANKS)) for _ in range(chance.choice((least, least, least, 1, 2))))


def comment(chance):
    """A comment: nothing, a line of a table, more of them, or any bytes."""
    said = chance.choice((b"", b" Sync_EX 5", b"#", b"\r", b" 5", chance.randbytes(6)))
    return b"#" + said.replace(b"\n", b" ")


def dressed(chance, entry, value):
    """The line of an entry with blanks, leading zeros and a comment by chance."""
    zeros = b"0" * chance.choice((0, 0, 0, 1, 3, 20))
    said = blanks(chance) + NAMES[entry] + blanks(chance, 1) + zeros + b"%d" % value + blanks(chance)
    return said + (comment(chance) if chance.random() < 0.3 else b"")


def dressed_text(chance, table, count):
    """A text that is read, in any order, with empty lines and comments."""
    lines = [dressed(chance, entry, value) for entry, value in enumerate(table[:count])]
    for _ in range(chance.randint(0, 3)):
        lines.append(blanks(chance) + (comment(chance) if chance.random() < 0.5 else b""))
    return joined(shuffled(chance, lines), chance.choice(ENDS))


def good_texts(chance):
    """Texts of each table, in order and not, with each end, dressed and plain."""
    for table, end in product((*DEFAULTS, small_table(chance)), ENDS):
        for count in (LIMITS, len(NAMES)):
            yield joined(lines_of(table, count), end)
            yield joined(shuffled(chance, lines_of(table, count)), end)
    for count in (LIMITS, len(NAMES)) * 12:
        yield dressed_text(chance, small_table(chance), count)
        yield dressed_text(chance, any_table(chance), count)
    for place, delay in enumerate(DELAYS):
        yield joined(lines_of(Table(*range(LIMITS))._replace(**{delay: place + 1}), len(NAMES)))
    yield joined(lines_of(Table(*range(1, len(NAMES) + 1)), len(NAMES)))
    yield joined(list(reversed(lines_of(Table(*range(1, len(NAMES) + 1)), len(NAMES)))), b"")


def with_blanks(chance):
    """Texts with each blank in each place, and comments in each place, of otherwise plain lines."""
    for blank in (*BLANKS, b" \t\r "):
        for table in (small_table(chance), OLD_DEFAULT):
            *others, last = lines_of(table)
            said = [blank + last, last.replace(b" ", blank), last + blank, last + blank + b"#", last + b"#" + blank]
            for each in said:
                yield joined([*others, each], chance.choice((b"\n", b"")))
            yield joined([*others, blank, last, blank + b"#x"], b"")
    others = lines_of(small_table(chance))[1:]
    for first in (b"Channel_DL 10#x", b"Channel_DL 10#", b"Channel_DL 1#0#2", b"Channel_DL 10 # Channel_DL 11",
                  b"#\nChannel_DL 10", b"# Channel_DL 9\nChannel_DL 10", b"\n\n\nChannel_DL 10\n\n",
                  b"##\n#\nChannel_DL 7", b"\r\nChannel_DL 10\r", b"Channel_DL 10\r#\r", b"#\0\xff\nChannel_DL 5"):
        yield joined([first, *others])


def allowed_numbers(chance):
    """Texts with each number that is allowed, as it is and with leading zeros."""
    for value, zeros in product(ALLOWED, (0, 1, chance.randint(2, 30))):
        table = small_table(chance)._replace(**{chance.choice(Table._fields[:LIMITS]): value})
        lines = lines_of(table)
        place = table.index(value)
        lines[place] = line(place, b"0" * zeros + b"%d" % value)
        yield joined(lines, chance.choice(ENDS))


def every_missing(chance):
    """Texts without each entry, with each number of names and each of the delays, and texts with none."""
    whole = lines_of(small_table(chance), len(NAMES))
    for entry, end in zip(ENTRIES, cycle(ENDS)):
        for count in (LIMITS, len(NAMES)):
            kept = whole[:entry] + whole[entry + 1:count]
            yield joined(kept, end)
            yield joined(shuffled(chance, kept), end)
    for bits in range(2**len(DELAYS)):
        delays = [each for place, each in enumerate(whole[LIMITS:]) if bits >> place & 1]
        left_out = chance.randrange(LIMITS)
        for limits in (whole[:LIMITS], whole[:left_out] + whole[left_out + 1:LIMITS], chance.sample(whole[:LIMITS], 2)):
            yield joined(shuffled(chance, limits + delays), chance.choice(ENDS))
        yield joined(delays)
    for entry in ENTRIES[LIMITS:]:
        yield joined([*whole[:LIMITS], line(entry, 0)])
    yield from (b"", b"\n", b"\r\n", b"\n\n\n", b" ", b"\t\r", b"#", b"# Channel_DL 5\n#\n", b"#\n\n #x",
                b"Channel_DL 5", b"Channel_DL 5\n", b"Channel_DL 5\n\n \n#", b" ".join(whole), b"\r".join(whole))


def some_lines(chance, but, most=3):
    """A few lines of entries other than this one."""
    entries = chance.sample([entry for entry in ENTRIES if entry != but], chance.randint(0, most))
    return [line(entry, chance.randint(0, 99)) for entry in entries]


def among(chance, but, *wrong):
    """A text of a few good lines with wrong ones among them."""
    return joined([*some_lines(chance, but), *wrong, *some_lines(chance, but)], chance.choice(ENDS))


def every_twice(chance):
    """Each name a second time, with a good number or a bad one, next to the first and further from it."""
    for entry in ENTRIES:
        again = (b"5", b"6", b"x", b"", b"70000", b"5 5", b"5#x")
        for behind in chance.sample(again, 3):
            between = some_lines(chance, entry)
            yield joined([line(entry, 5), *between, line(entry, behind)], chance.choice(ENDS))
    for behind, count in product((b"5", b"6", b"x", b"", b"70000", b"70000 1", b"+6"), (LIMITS, len(NAMES))):
        lines = lines_of(small_table(chance), count)
        yield joined([*lines, line(chance.randrange(LIMITS), behind)])
        yield joined([*lines, line(0, behind), b"#", line(0, behind), lines[3], b"x"], b"")
    yield joined([line(0, b"x"), line(0, b"y")])
    yield joined([b"#" + line(0, 5), *lines_of(OLD_DEFAULT)])


def every_no_number(chance):
    """What is no number behind each name; single bytes that are no digits at each place of a word."""
    for behind, entry in zip((*NO_NUMBERS, *NO_NUMBERS), cycle(ENTRIES)):
        yield among(chance, entry, line(entry, behind))
    for behind in chance.sample(NO_NUMBERS, 12):
        lines = lines_of(small_table(chance))
        place = chance.randrange(LIMITS)
        lines[place] = line(place, behind)
        yield joined(lines, chance.choice(ENDS))
    for odd in ODD_BYTES:
        entry = chance.choice(ENTRIES)
        for word in (odd, odd + b"5", b"1" + odd + b"5", b"15" + odd):
            yield joined([line(entry, word)], chance.choice(ENDS))


def every_too_large(chance):
    """Numbers that are too large behind each name, with leading zeros and without."""
    for entry, (value, zeros) in zip(cycle(ENTRIES), [*product(TOO_LARGE, (0, 1, 25)), *product((65_536,), range(9))]):
        yield among(chance, entry, line(entry, b"0" * zeros + b"%d" % value))
    for value in TOO_LARGE[:4]:
        lines = lines_of(small_table(chance))
        place = chance.randrange(LIMITS)
        lines[place] = line(place, value)
        yield joined(lines, chance.choice(ENDS))


def near_words(chance, name):
    """Words that are near to a name: each way to be near that is counted, and some other ones."""
    place, more = chance.randrange(len(name)), bytes((chance.choice(b"_0Az.\0\xff"),))
    yield from (name[:-1], name[1:], name + more, more + name, name[:place] + b"~" + name[place + 1:])
    yield from (name.lower(), name.upper(), chance.choice((name[:1].lower() + name[1:], name[:-1] + name[-1:].lower())))
    yield from chance.sample((
        name[:-1] + b"X", b"X" + name[1:], name[:place] + name[place + 1:], name.replace(b"_", b"-"), name + b"=5",
        name.replace(b"_", b""), BYTE_ORDER_MARK + name, name + chance.choice(NAMES), name.swapcase(), name[:-2],
    ), 3)


def every_no_name(chance):
    """Words that are near to each name, and others, with what stands behind them."""
    for name in NAMES:
        for word in near_words(chance, name):
            yield among(chance, None, word + chance.choice((b" 5", b" 5", b"", b" x", b" 70000")))
    for word, behind in product(OTHER_WORDS, (b"", b" 5")):
        yield among(chance, None, word + behind)
    for start in (BYTE_ORDER_MARK, b"\xff\xfe", b"\0", b"x\n", b"Name Value\n", b"Chan#nel_DL 5\n", b"Chan nel_DL 5\n"):
        yield start + joined(lines_of(small_table(chance)))


# A line with each fault that a line can have, beside a first line that gives the first entry.
WRONG = {1: b"Sync 5", 2: line(0, 6), 3: line(1, b"x"), 4: line(1, 65_536)}


def first_of_two(chance):
    """Each fault before each other one, in other lines and in a whole text, and with comments."""
    for (first, wrong), (_, later) in product(WRONG.items(), WRONG.items()):
        yield joined([line(0, 5), wrong, line(2, 7), later, line(3, 8)], chance.choice(ENDS))
    whole = lines_of(small_table(chance))
    for wrong in WRONG.values():
        yield from (wrong, wrong + b"\n")
        for place in (1, chance.randrange(1, LIMITS), LIMITS):
            yield joined(whole[:place] + [wrong] + whole[place:], chance.choice(ENDS))
        for end in ENDS:
            yield joined([line(0, 5), wrong], end)
            yield joined([wrong, line(0, 5), line(0, 5)], end)
        yield joined([line(0, 5), wrong + b"#"])
        yield joined([line(0, 5), wrong + b" # 5"])


def longest(chance):
    """Texts as long as a field, of line feeds, comments, words, digits, blanks and names; and long lines."""
    text = joined(lines_of(OLD_DEFAULT))
    rest = LONGEST_FIELD - len(text)
    last = text[:-1]
    yield from (b"\n" * LONGEST_FIELD, b"\n" * rest + text, b"#" * (rest - 1) + b"\n" + text, text + b"x" * rest)
    yield from (last + b"0" * rest, text.replace(b" 5\n", b" " + b"0" * rest + b"5\n"), text + b" " * rest)
    yield from (text.replace(b" 5\n", b" " * (rest + 1) + b"5\n"), last + b" " + b"5" * (rest - 1))
    yield from ((line(0, 5) + b"\n") * 4_000, b"\0" * LONGEST_FIELD, chance.randbytes(LONGEST_FIELD))
    for many in (300, 65_700):
        yield from (b"\n" * many, b"\n" * many + b"x", b" " * many + b"x", b"x" * many, line(0, b"0" * many + b"70000"))


def edited(chance, text):
    """The text with a few bytes or lines taken out, put in, changed, doubled or crossed."""
    for _ in range(chance.randint(1, 3)):
        place, other = sorted(chance.randrange(len(text) + 1) for _ in range(2))
        byte = chance.choice((bytes((chance.randrange(256),)), b" ", b"\n", b"#", b"\r", b"0", b"9", b"_"))
        lines = text.split(b"\n")
        here, there = (chance.randrange(len(lines)) for _ in range(2))
        text = chance.choice((
            text[:place] + text[place + 1:], text[:place] + byte + text[place:], text[:place] + byte + text[place + 1:],
            text[:place] + text[other:other + 1] + text[place + 1:other] + text[place:place + 1] + text[other + 1:],
            b"\n".join(lines[:here] + lines[here + 1:]), b"\n".join(lines[:here] + [lines[there]] + lines[here:]),
            b"\n".join(lines[:here] + [lines[there]] + lines[here + 1:]), text[:place] + text[other:], text[:place],
        ))
    return text


def any_text(chance):
    """A good text, an edited one, or any bytes."""
    if chance.random() < 0.05:
        return bytes(chance.choice(b"Sync_EX 5\n\r\t#\0\xff") for _ in range(chance.randint(0, 60)))
    table = chance.choice((small_table, small_table, admitted_table, any_table))(chance)
    count = chance.choice((LIMITS, LIMITS, len(NAMES)))
    plain = joined(shuffled(chance, lines_of(table, count)), chance.choice(ENDS))
    text = plain if chance.random() < 0.5 else dressed_text(chance, table, count)
    return edited(chance, text) if chance.random() < 0.8 else text


def demanded(chance):
    """The cases that the coverage demands of texts."""
    for make in (good_texts, with_blanks, allowed_numbers, every_missing, every_twice, every_no_number, every_too_large,
                 every_no_name, first_of_two, longest):
        yield from map(case, make(chance))
    yield from (case(any_text(chance)) for _ in range(100))


def draw(chance):
    """A text by chance."""
    yield case(any_text(chance))
