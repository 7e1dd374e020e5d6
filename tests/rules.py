#!/usr/bin/env python3
"""Runs the lists, readings, forms, zone offsets, counts, reasons, sentences, writings and sheets that docs/RULES.md shows:
python3 tests/rules.py FOLDER PREFIX

The list and the report of the section on each program must be what the program in FOLDER makes of it. Each row of its tables of texts,
formats and answers is run as a list of one text; the number, the place and, with 0, the date must be those of date_lines. Each row of its
table of moments, formats and answers is run by the library that is installed under PREFIX; all of the buffer must be as the row says. Each
row of its table of days examined is run there too, by both engines, and with the smallest budget that is enough and the largest that is
not; each row of its tables of the forms of names and of zone offsets, by both engines; and each row of its table of reasons. For each
sentence of quarrels there is a list of one text that must get it. Each row of its table of sheets and words is packed and unpacked, and
the sheets of its list are added in every order: both arrays must be as its tables say.
"""
import ctypes
import itertools
import os
import re
import subprocess
import sys

ROOT = os.path.dirname(os.path.dirname(os.path.abspath(__file__)))
COUNTS = r"(?m)^\| `([^`|]*)` \| `([^`|]*)` \| (\d+) \| (\d+) \|"
ROW = r"(?m)^\| (`[^|]*`|any text[^|`]*?)(?: \*)? \| (`[^|]*`|empty) \| (\d+), place (\d+)([^|\n]*)"
NAMED = r"(?m)^\| `([^`|]*)` \| `([^`|]*)` \| [^|]* \| (none|full|middle|short) \| (none|full|middle|short) \|"
OFFSET = r"(?m)^\| `([^`|]*)` \| `([^`|]*)` \| [^|]* \| (unsaid|-?\d+) \|$"
SHEET = r"(?:(\d+)-(\d+)-(\d+)|no day,)(?: (\d\d|--):(\d\d|--):(\d\d|--))?(?: ([+-]\d{4}))?"
EXAMPLE = r"(?ms)^### 9\.\d `(\w+)`$.*?^```\n(.*?)^```\n\ngets[^`]*```\n(.*?)^```$"
FORMS = ["none", "full", "middle", "short"]
PARTS = ["", "year", "month", "day"]
# the words of a zone offset that is unsaid: the second is not looked at
UNSAID = [0, 1440]
BLANKS = {"": 0, "a blank and ": 1, "two blanks and ": 2, "three blanks and ": 3, "seven blanks and ": 7}
# a format and a text for each sentence of quarrels, in the order of their table
REFUSED = [
    ("%" * 1025, "5"),
    ("%d %Q", "5"),
    ("%d", "5" * 1025),
    ("%a", "5"),
    ("%d %b", "5"),
    ("%H", "24"),
    ("%d %e", "5 6"),
    ("%a %d %b %Y", "Tue 5 Mar 1934"),
    ("%H %p", "7 PM"),
    ("%d %b", "5 mar"),
    ("%I:%M", "07:08"),
    ("%p", "PM"),
]


def rows(rules, head):
    """The rows of all tables whose first columns are these."""
    tables = re.findall(rf"(?m)^{re.escape(head)} .*\n\|[-|]*\n((?:\|.*\n)*)", rules)
    return [row for table in tables for row in table.splitlines()]


def reported(program, text):
    return subprocess.run([program], input=text.encode(), capture_output=True, check=True).stdout.decode()


def readings(rules):
    """Lists of one text, each with its report."""
    for text, form, number, place, rest in re.findall(ROW, rules):
        text, form = (quoted[1:-1] if quoted[0] == "`" else "" for quoted in (text, form))
        date = re.search(r"\d{4}-\d\d-\d\d", rest) if number == "0" else None
        yield f"{form}\n{text}\n", f"number place date time\n{number} {place} {date.group() if date else '-'} --:--:--\n"


def written(library, form, moment, room):
    """The number, the place and the buffer, of which each byte was a #."""
    buffer = ctypes.create_string_buffer(b"#" * room, room)
    fields = (ctypes.c_uint32 * 8)(*moment)
    result = library.larusqem_strftime_words(form.encode(), ctypes.c_size_t(len(form)), fields, buffer, ctypes.c_size_t(room))
    return result >> 32, result & 0xFFFFFFFF, buffer.raw.decode()


def zone(offset):
    """The words of a zone offset that is said."""
    return [1, int(offset[0] + "1") * (60 * int(offset[1:3]) + int(offset[3:5])) % 2**32]


def writings(rules):
    """A format, a moment and the bytes of a buffer, each with the number, the place and the buffer that they get."""
    moments = []
    for row in rows(rules, "| moment | format | answer"):
        given, formats, answer = row.strip("|").split("|")
        if "the same" not in given:
            dates = re.findall(r"(\d+)-(\d+)-(\d+)(?: (\d+):(\d+):(\d+))?( [+-]\d{4})?", given) or [("1", "1", "1", "", "", "", "")]
            moments = [[*(int(field or 0) for field in date[:6]), *(zone(date[6][1:]) if date[6] else UNSAID)] for date in dates]
        elif "zone offset unsaid" in given:
            moments = [[*moment[:6], *UNSAID] for moment in moments]
        elif said := re.search(r" with ([+-]\d{4})", given):
            moments = [[*moment[:6], *zone(said[1])] for moment in moments]
        asked = list(itertools.product(moments, re.findall(r"`([^`]*)`", formats) or [""]))
        room = int((re.search(r"a buffer of (\d+) bytes", given) or [0, 64])[1])
        refused = re.search(r"([1-9]\d*), place (\d+)", answer)
        texts = [" " * BLANKS[blanks] + text for blanks, text in re.findall(r"((?:\w+ blanks? and )?)`([^`]*)`", answer)] or [""]
        if refused:
            answers = [(int(refused[1]), int(refused[2]), "#" * room)] * len(asked)
        else:
            answers = [(0, len(text), text.ljust(room, "#")) for text in texts]
            place = re.search(r"0, place (\d+)", answer)
            if len(answers) != len(asked) or place and int(place[1]) != len(texts[0]):
                sys.exit(f"docs/RULES.md has a row of a moment, a format and an answer that was not understood: {row}")
        yield from (((form, moment, room), given) for (moment, form), given in zip(asked, answers))


def words_of(library, form, text, engine, budget):
    """The words of a reading."""
    words = (ctypes.c_uint32 * 20)()
    lengths = [ctypes.c_size_t(len(form)), ctypes.c_size_t(len(text))]
    arguments = [form.encode(), lengths[0], text.encode(), lengths[1], ctypes.c_uint32(engine), ctypes.c_uint32(budget), words]
    library.larusqem_strptime_words(*arguments)
    return list(words)


def counts(library, rules):
    """A text, a format, an engine and a budget, each with what they shall give and what they give: numbers, places, days examined."""
    for text, form, plain, skipping in re.findall(COUNTS, rules):
        asked = [(form, text, *by) for by in [(0, 0), (1, 0), (2, int(plain))] + [(2, int(plain) - 1)] * (plain != "0")]
        given = [tuple(words[i] for i in (0, 1, 15)) for words in (words_of(library, *each) for each in asked)]
        number, place, _ = given[0]
        expected = [(number, place, int(n)) for n in [skipping, plain, plain]] + [(11, int(plain) - 1, int(plain) - 1)]
        yield from zip(asked, expected, given)


def forms(library, rules):
    """A text, a format and an engine, each with the forms that they shall give and that they give, of a weekday and of a month."""
    for text, form, weekday, month in re.findall(NAMED, rules):
        for engine in (0, 1):
            given = words_of(library, form, text, engine, 0)[16:18]
            yield (form, text, engine), [weekday, month], [FORMS[number] for number in given]


def offsets(library, rules):
    """A text, a format and an engine, each with the words of the zone offset that they shall give and that they give."""
    for text, form, minutes in re.findall(OFFSET, "\n".join(rows(rules, "| text | format | answer | zone offset"))):
        expected = [0, 0] if minutes == "unsaid" else [1, int(minutes) % 2**32]
        yield from (((form, text, engine), expected, words_of(library, form, text, engine, 0)[18:]) for engine in (0, 1))


def shown(words):
    """The two days or hours of a 10, in the words of the tables; nothing for another number."""
    if words[0] != 10:
        return ""
    if words[1] == 2:
        return f"hours {words[6]} and {words[14]}"
    return "days %04d-%02d-%02d and %04d-%02d-%02d" % (*words[2:5], *words[11:14])


def named(library, kinds, form, text):
    """The part or the kinds of a reason, in the words of its table. No word of it may stay as it was."""
    words = (ctypes.c_uint32 * 33)(*[1024] * 33)
    library.larusqem_explain_words(form.encode(), ctypes.c_size_t(len(form)), text.encode(), ctypes.c_size_t(len(text)), words)
    extents = zip(kinds, words[1::2], words[2::2])
    return PARTS[words[0]] + ", ".join(f"{kind} {start} to {end}" for kind, start, end in extents if start or end)


def reasons(library, rules):
    """A text and a format, each with the answer and the reason that they shall get and that they get."""
    kinds = ["none"] + [row.split(" | ")[1] for row in rows(rules, "| kind | | said by")]
    for row in rows(rules, "| text | format | answer | reason"):
        text, form = re.findall(r"`([^`]*)`", row)
        answer, reason = row.strip("|").split("|")[2:]
        words = words_of(library, form, text, 0, 0)
        given = f"{words[0]}, place {words[1]}, {shown(words)}".strip(", "), named(library, kinds, form, text) or shown(words)
        yield (form, text), (answer.strip(), re.split("[:;]", reason)[0].strip()), given


def sheet_of(text):
    """The words of a sheet as the tables show it; the number of what is unsaid is not looked at."""
    *date, hour, minute, second, offset = re.fullmatch(SHEET, text).groups()
    said = [[0, 99] if number in (None, "--") else [1, int(number)] for number in (hour, minute, second)]
    return [int(number or 0) for number in date] + sum(said, []) + (zone(offset) if offset else UNSAID)


def unpacked(library, word):
    """The words of the sheet that a word is the packing of, or why there are none."""
    words = (ctypes.c_uint32 * 11)(*[99] * 11)
    return list(words) if library.larusqem_unpack_words(ctypes.c_uint64(word), words) == 1 else "no packing"


def packed(library, sheet):
    """A sheet's word, or the number and the place of its refusal, in the words of the table."""
    word = (ctypes.c_uint64 * 1)(99)
    result = library.larusqem_pack_words((ctypes.c_uint32 * 11)(*sheet), word)
    return f"none: {result >> 32}, place {result & 0xFFFFFFFF}" if result else f"`{word[0]:016x}`"


def sheets(library, rules):
    """A sheet with the word that it shall have and that it has, and a word with the sheet that it shall be of and that it is of."""
    for row in rows(rules, "| sheet | word, in hexadecimal"):
        text, expected = (cell.strip() for cell in row.strip("|").split("|"))
        sheet = sheet_of(text)
        yield text, expected, packed(library, sheet)
        if expected[0] == "`":
            said = [n if i < 3 or sheet[i - (i + 1) % 2] else 0 for i, n in enumerate(sheet)]
            yield expected, said, unpacked(library, int(expected[1:-1], 16))


def additions(library, rules):
    """The sheets of the list in some order, with the arrays and the answer that adding them shall give and that it gives."""
    listed = [row.strip("|").split("|") for row in rows(rules, "| list | sheet")]
    tallied = [row.strip("|").split("|") for row in rows(rules, "| table | week | sheets")]
    words, table = ([int(row[0].strip(" `"), 16) for row in read] for read in (listed, tallied))
    week = [f"{word >> 50:04}-W{word >> 44 & 63:02} | {word & 2**44 - 1}" for word in table]
    yield "weeks", [" | ".join(cell.strip() for cell in row[1:]) for row in tallied], week
    expected = [*words, 77], [*table, *[77] * (1024 - len(table))], [len(words), len(table)], [0, 0, len(words)]
    for order in set(itertools.permutations(row[1].strip() for row in listed)):
        given = [word for text in order for word in sheet_of(text)]
        arrays = [(ctypes.c_uint64 * (len(words) + 1))(*[77] * (len(words) + 1)), (ctypes.c_uint64 * 1024)(*[77] * 1024)]
        lent = [part for array in arrays for part in (array, ctypes.c_size_t(len(array)))]
        counts, added = (ctypes.c_uint32 * 2)(), (ctypes.c_uint32 * 3)(9, 9, 9)
        library.larusqem_add_words((ctypes.c_uint32 * len(given))(*given), ctypes.c_size_t(len(given)), *lent, counts, added)
        yield order, expected, (*map(list, arrays), list(counts), list(added))


def sentences(program, rules):
    """A format and a text for each sentence, with the sentence and, where the program does not say it, what it says. In a sentence .. is
    any words; one that is only the end of another follows a semicolon."""
    spans = [span for row in rows(rules, "| number | sentence") for span in re.findall(r"`([^`]*)`", row)]
    for (form, text), sentence in zip(REFUSED, spans, strict=True):
        said = reported(program, f"{form}\n{text}\n")
        pattern = re.escape(sentence).replace(r"\.\.", ".*")
        yield (form, text), sentence, sentence if re.search(rf"\nline 2: (.*; )?{pattern}\n\n\Z", said) else said


def main(folder, prefix):
    with open(os.path.join(ROOT, "docs", "RULES.md"), encoding="utf-8") as file:
        rules = file.read()
    library = ctypes.CDLL(os.path.join(os.path.abspath(prefix), "lib", "liblarusqem.so"))
    library.larusqem_strftime_words.restype = ctypes.c_uint64
    library.larusqem_pack_words.restype = ctypes.c_uint64
    library.larusqem_explain_words.restype = library.larusqem_add_words.restype = None
    date_lines, quarrels = (os.path.join(folder, name) for name in ("date_lines", "quarrels"))
    cases = {
        "lists": [(text, report, reported(os.path.join(folder, name), text)) for name, text, report in re.findall(EXAMPLE, rules)],
        "readings": [(text, report, reported(date_lines, text)) for text, report in readings(rules)],
        "forms": list(forms(library, rules)),
        "zone offsets": list(offsets(library, rules)),
        "counts": list(counts(library, rules)),
        "reasons": list(reasons(library, rules)),
        "sentences": list(sentences(quarrels, rules)),
        "writings": [(asked, expected, written(library, *asked)) for asked, expected in writings(rules)],
        "sheets": list(sheets(library, rules)),
        "orders of sheets": list(additions(library, rules)),
    }
    wrong = [case for tried in cases.values() for case in tried if case[1] != case[2]]
    for asked, expected, got in wrong:
        print(f"docs/RULES.md says of\n{asked}\nthat the answer is\n{expected}\nand it is\n{got}")
    tried = ", ".join(f"{len(tried)} {name}" for name, tried in cases.items())
    print(f"{tried} of docs/RULES.md tried, {len(wrong)} not as it says")
    rows_read = len(rows(rules, "| text | format | answer")) == len(cases["readings"])
    rows_counted = len(rows(rules, "| said | by")) == len(re.findall(COUNTS, rules))
    rows_named = len(rows(rules, "| text | format | answer | weekday | month")) == len(re.findall(NAMED, rules))
    rows_offset = 2 * len(rows(rules, "| text | format | answer | zone offset")) == len(cases["zone offsets"])
    if not (rows_read and rows_counted and rows_named and rows_offset and all(cases.values())):
        print("docs/RULES.md has a row of a text, a format and an answer that was not understood")
        return 1
    return 1 if wrong else 0


if __name__ == "__main__":
    if len(sys.argv) != 3:
        sys.exit("usage: python3 tests/rules.py FOLDER PREFIX")
    sys.exit(main(*sys.argv[1:]))
