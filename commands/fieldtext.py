"""A block's fields as text, one field a line in decimal, and back: what `fields` prints and `block` reads.

What may stand in a field is not written down here: it is asked of the proved writer, over records that differ in one field.
"""
import re
import struct

from . import house

FORMATS = ["unsigned", "signed"]
CHANNELS = ["red", "green", "blue"]
# The most bytes of a text: some thirty times what a text has.
TEXT = 16_384
# An answer of run_write, a number and the block; one of run_show, a number and the 48 values.
ANSWER, PICTURE = 17, 97

NUMBER = "([0-9]{1,9})"
ENDPOINT = " ".join(f"{channel} {NUMBER}" for channel in CHANNELS)
# The lines by their names, in the order of the record: what follows the name, and how many bytes a number has in the record.
LINES = {"format": (f"({'|'.join(FORMATS)})", 1), "mode": (NUMBER, 1)}
LINES |= {f"endpoint {e}": (ENDPOINT, 2) for e in range(4)}
LINES |= {"partition": (NUMBER, 1), "region1": (NUMBER, 1)}
LINES |= {f"indices {row}": (" ".join(4 * [NUMBER]), 1) for row in range(4)}
# What is 0 where a text does not say it: the text of a one-region block has none of these lines. The count of region 1 is the partition's.
LEFT_OUT = {"endpoint 2": [0, 0, 0], "endpoint 3": [0, 0, 0], "partition": [0]}


def format_number(word):
    """The number of a format that the command line names."""
    if word not in FORMATS:
        raise house.Usage(f"a format is signed or unsigned, and not '{house.shown(word, 40)}'")
    return FORMATS.index(word)


def refused(reason, name=None):
    return house.Refused(10, "block refused 10\n", reason, name)


def text_of(fields):
    """The text of the 44 bytes that run_fields gives."""
    form, mode, partition, region1, indices = fields[0], fields[1], fields[26], fields[27], fields[28:]
    values = [low + 256 * high for low, high in zip(fields[2:26:2], fields[3:26:2])]
    two = mode <= 10
    lines = [f"format {FORMATS[form]}", f"mode {mode}"]
    for e in range(4 if two else 2):
        lines.append(" ".join([f"endpoint {e}"] + [f"{channel} {value}" for channel, value in zip(CHANNELS, values[3 * e:3 * e + 3])]))
    if two:
        lines += [f"partition {partition}", f"region1 {region1}"]
    for row in range(4):
        lines.append(" ".join([f"indices {row}"] + [str(index) for index in indices[4 * row:4 * row + 4]]))
    return "\n".join(lines) + "\n"


def parsed(data):
    """The numbers of each line of a text, by its name."""
    if len(data) > TEXT:
        raise refused(f"a text of fields has some 400 bytes, and this more than {TEXT}")
    text = data.decode("utf-8-sig", errors="replace")
    said = {}
    for n, line in enumerate(text.replace("\r\n", "\n").replace("\r", "\n").split("\n"), 1):
        words = " ".join(line.split())
        if not words:
            continue
        name = next((name for name in LINES if words.startswith(name + " ") or words == name), None)
        match = re.fullmatch(LINES[name][0], words[len(name) + 1:]) if name else None
        if not match:
            shape = f"'{name} {LINES[name][0].replace(NUMBER, 'N').strip('()')}'" if name else f"one of {', '.join(LINES)}"
            raise refused(f"line {n} is '{house.shown(words, 60)}' and has to be {shape}")
        if name in said:
            raise refused(f"line {n} says '{name}' again")
        said[name] = [FORMATS.index(word) if word in FORMATS else int(word) for word in match.groups()]
    for name in LINES:
        if name not in said and name not in LEFT_OUT and name != "region1":
            raise refused(f"there is no line '{name} ..'")
    return LEFT_OUT | said


def record_of(said):
    """The 44 bytes that run_write reads; None where a number has no room in them."""
    try:
        return b"".join(number.to_bytes(size, "little") for name, (_, size) in LINES.items() for number in said[name])
    except OverflowError:
        return None


def written(texts):
    """The block that the proved writer makes of each, None for a refused one."""
    records = [record_of(said) for said in texts]
    asked = [record for record in records if record]
    answers = house.ask("run_write", b"".join(asked), lambda answers: len(answers) == ANSWER * len(asked))
    made = iter([answers[k:k + ANSWER] for k in range(0, len(answers), ANSWER)])
    blocks = [next(made) if record else None for record in records]
    return [answer[1:] if answer and answer[0] == 0 else None for answer in blocks]


def plain(said, **changes):
    """A record of the same mode and partition that is 0 elsewhere, but for the changes."""
    zero = {name: [0] * len(said[name]) for name in LINES if name != "region1"}
    return zero | {name: said[name] for name in ("format", "mode", "partition")} | {"region1": [0]} | changes


def spans(numbers):
    """Numbers that are all of a range, in words."""
    return f"{numbers[0]} to {numbers[-1]}" if len(numbers) > 1 else f"{numbers[0]}" if numbers else "nothing"


def region1_of(said):
    """How many pixels the partition has in region 1; None where the mode or the partition is none."""
    counts = range(17)
    made = written([plain(said, region1=[count]) for count in counts])
    return next((count for count, block in zip(counts, made) if block), None)


def mode_or_partition(said):
    """Why there is no count: the mode is none, or has no such partition."""
    tried = [plain(said, mode=[mode], partition=[0], region1=[count]) for mode in range(33) for count in range(17)]
    modes = sorted({record["mode"][0] for record, block in zip(tried, written(tried)) if block})
    mode, partition = said["mode"][0], said["partition"][0]
    if mode not in modes:
        return f"mode is {mode} and may be {spans(modes)}"
    tried = [plain(said, partition=[part], region1=[count]) for part in range(65) for count in range(17)]
    parts = sorted({record["partition"][0] for record, block in zip(tried, written(tried)) if block})
    return f"partition is {partition} and may be {spans(parts)} in mode {mode}"


def causes(said, region1):
    """What is wrong with fields whose mode and partition are right: each field by itself, with what it is and what it may be."""
    found = []
    if said["region1"][0] != region1:
        found.append(f"region1 is {said['region1'][0]} and has to be {region1}, the pixels that partition {said['partition'][0]} has there")
    places = [(name, k) for name in LINES if name.split()[0] in ("endpoint", "indices") for k in range(len(said[name]))]

    def alone(name, k, value):
        return plain(said, **{name: [value if j == k else 0 for j in range(len(said[name]))]}, region1=[region1])

    bad = [place for place, block in zip(places, written([alone(name, k, said[name][k]) for name, k in places])) if not block]
    tried = [(place, 2 ** width - 1) for place in bad for width in range(17)]
    most = {place: 0 for place in bad}
    for (place, value), block in zip(tried, written([alone(*place, value) for place, value in tried])):
        if block:
            most[place] = max(most[place], value)
    for name, k in bad:
        what = f"{name} {CHANNELS[k]}" if name.startswith("endpoint") else f"the index of pixel {4 * int(name.split()[1]) + k}"
        found.append(f"{what} is {said[name][k]} and may be {'0' if most[name, k] == 0 else f'0 to {most[name, k]}'} in mode {said['mode'][0]}")
    return found


def block_of(said, name=None):
    """The sixteen bytes of the block that has the fields, and refusal 10 with every cause where none has."""
    region1 = region1_of(said)
    if region1 is None:
        raise refused(mode_or_partition(said), name)
    said = {"region1": [region1]} | said
    block = written([said])[0]
    if block is None:
        raise refused("; ".join(causes(said, region1)) or house.meaning(10), name)
    return block


def picture_of(fields):
    """The text of what the 44 bytes of a record show, before any block is written of them: a line a pixel, its three patterns in hex."""
    numbers = [*fields[:2], *struct.unpack("<12H", fields[2:26]), *fields[26:]]
    shown = house.ask("run_show", struct.pack("<32H", *numbers), lambda answer: len(answer) == PICTURE)
    if shown[0] != 0:
        raise house.Refused(shown[0], f"block refused {shown[0]}\n")
    values = struct.unpack("<48H", shown[1:])
    return "".join(f"pixel {k} {values[3 * k]:04X} {values[3 * k + 1]:04X} {values[3 * k + 2]:04X}\n" for k in range(16))
