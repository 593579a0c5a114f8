"""What is looked at in a page of `knot report`: each look holds one part of a page to what the commands tell of its store."""
import datetime
import functools
import hashlib
import json
import random
import re
import shlex
import struct

from browser import Stopped
from stores import PRECISION, Facts, own_exposure, shows, transformed

# canvas points of a pixel's side: of a large tile, and in print
LARGE, PRINTED = 24, 12
# the least contrast of text that WCAG's level AA asks, the least that a thing to tap measures, and how far apart the false colours are (of 441)
CONTRAST, TAP, APART = 4.5, 44, 30
# A4 without the margins that the page asks, in CSS pixels
SHEET_WIDTH, SHEET_HEIGHT = 695, 1024
SIGNS = {"stays": "", "copy": "C", "alike": "A", "damaged": "D", "refused": "×"}


class Tally:
    """Counts checks and keeps what is wrong. While a fault is planted, the first check that finds it ends the look."""

    def __init__(self):
        self.checks, self.wrong, self.planted = 0, [], False

    def __call__(self, holds, what):
        self.checks += not self.planted
        if not holds and self.planted:
            raise Stopped(what)
        if not holds:
            self.wrong.append(what)


check = Tally()


@functools.cache
def facts_of(path):
    return Facts(path)


def screen(value, stops):
    """A channel's byte: linear light scaled, cut, and given sRGB's gamma."""
    x = min(max(value * 2.0 ** stops, 0.0), 1.0)
    return round(255 * (12.92 * x if x <= 0.0031308 else 1.055 * x ** (1 / 2.4) - 0.055))


def near(a, b):
    return all(abs(x - y) <= 1 for x, y in zip(a, b))


def plural(number, one, more):
    return f"{number:,} {one if number == 1 else more}"


def halves(values):
    return struct.unpack("<48H", struct.pack("<48e", *values))


WAY = 'document.querySelector(`[name=way][value=${words[0]}]`).click();'
EXPOSE = 'const slider = document.getElementById("exposure"); slider.value = words[0]; slider.dispatchEvent(new Event("input"));'
# The colours of places of a record's large tile in a card.
COLOURS = """
const pen = document.querySelector(`#${arguments[0]} canvas.tile[data-record="${arguments[1]}"]`).getContext("2d");
return arguments[2].map(([x, y]) => [...pen.getImageData(x, y, 1, 1).data].slice(0, 3));
"""
TEXT = "return document.querySelector(arguments[0]).innerText"
TEXTS = "return [...document.querySelectorAll(arguments[0])].map((one) => one.textContent)"


def to_card(view, card):
    view.settle("document.getElementById(words[0]).scrollIntoView()", card)


# ---- what is decided


def look_at_head(view, facts, page):
    """Damage first, then what is removed, in plain words; the sums, for people and for programs."""
    records, removed, alike, damaged, refused = len(facts.rows), len(facts.copies), len(facts.alike), facts.count("damaged"), facts.count("refused")
    told = view.run("return [...document.querySelectorAll('#verdict p')].map((one) => one.textContent)")
    of_all = f"of {plural(records, 'record', 'records')}"
    if damaged:
        check(told[0].startswith(f"{damaged:,} {of_all} {'is' if damaged == 1 else 'are'} damaged"), f"{facts.name}: damage is told first: {told}")
    if refused:
        check(re.search(rf"\b{refused:,} ({of_all} )?(is|are) refused", told[0]), f"{facts.name}: refused records are told first: {told}")
    said = next((line for line in told if line.startswith("The clean-up removes")), "")
    check(said == (f"The clean-up removes {removed:,} {of_all}." if removed else "The clean-up removes nothing."), f"{facts.name}: what is removed: {said}")
    check(not alike or any(line.startswith(f"{alike:,} record") and "bytes" in line and "stay" in line for line in told), f"{facts.name}: what looks alike: {told}")
    counts = dict(reversed(line.split(" ", 1)) for line in view.run("return [...document.querySelectorAll('#counts li')].map((one) => one.firstChild.textContent + ' ' + one.lastChild.textContent)"))
    wanted = {"records": records, "damaged": damaged, "refused": refused, "removed": removed, "stays" if records - removed == 1 else "stay": records - removed, "of them look alike": alike}
    check(counts == {word: f"{number:,}" for word, number in wanted.items()}, f"{facts.name}: the counts: {counts}")
    edge = view.run("const one = document.querySelector('.verdict'); return [getComputedStyle(one).borderLeftColor, getComputedStyle(document.body).getPropertyValue('--goes'), one.className]")
    check(edge[2] == "verdict " + ("worry" if damaged + refused else "removes" if removed else "nothing"), f"{facts.name}: nothing removed is no alarm: {edge}")
    text = page.read_text()
    before, after = hashlib.sha256(facts.store).hexdigest(), hashlib.sha256(facts.left).hexdigest()
    for name, value in (("knot-before", before), ("knot-after", after)):
        check(re.findall(f'<meta name="{name}" content="([^"]*)">', text.split("</head>")[0]) == [value], f"{facts.name}: the sum {name} for programs")
    head = view.run("return document.querySelector('.facts').textContent")
    for word in (facts.name, before, after, f"{len(facts.store):,} bytes", facts.audit["knot"], facts.audit["commit"], facts.audit["kit"], DATE):
        check(word in head, f"{facts.name}: the facts have {word}")
    words = view.run("return document.querySelector('#audit ~ pre').textContent").splitlines()
    check(words[-1] == facts.text[-1] and words[3:] == facts.text[3:], f"{facts.name}: the audit in words")
    visible = view.run("return document.body.innerText")
    check(not re.search(r"\bkept\b(?! in the receipt)|theorem|≠", visible.split("The audit in words")[0]), f"{facts.name}: plain words before anything is unfolded")


DATE = "2026-11-16"


def look_at_next(view, facts, page):
    """Who signs for what; the command with the sum; how to check and to undo."""
    before, after = hashlib.sha256(facts.store).hexdigest(), hashlib.sha256(facts.left).hexdigest()
    sign = view.run(TEXT, ".sign")
    check(all(word in sign for word in (before, after, f"removes {len(facts.copies):,} of")), f"{facts.name}: what is signed for: {sign}")
    check(re.findall("Name|Date|Signature", sign) == 2 * ["Name", "Date", "Signature"] and "second signer" in sign and "Print this page" in sign, f"{facts.name}: room for two, announced on the screen")
    if not facts.copies:
        check(view.run("return document.querySelectorAll('.command').length") == 0, f"{facts.name}: nothing to run where nothing is removed")
        return
    commands = [shlex.split(view.run(f"return document.getElementById('{name}-command').textContent")) for name in ("clean", "check", "restore")]
    out, receipt = facts.name + ".cleaned", facts.name + ".receipt"
    check(commands[0] == ["knot", "clean", facts.name, out, "--signed", before, "--receipt", receipt], f"{facts.name}: the clean-up to copy: {commands[0]}")
    check(commands[1] == ["printf", "%s  %s\\n", after, out, "|", "sha256sum", "-c"], f"{facts.name}: the check to copy: {commands[1]}")
    check(commands[2] == ["knot", "restore", out, receipt, facts.name + ".restored"], f"{facts.name}: the way back to copy: {commands[2]}")
    view.settle("document.querySelector('[data-copy=clean-command]').click()")
    check(view.run("return getSelection().toString().trim() === document.getElementById('clean-command').textContent"), f"{facts.name}: the button takes the command")


# ---- cards


def look_at_cards(view, facts, page):
    """A card for each picture that several records show, those with alike records first; what each says."""
    classes = facts.classes()
    shown = view.run("return [...document.querySelectorAll('.class')].map((card) => card.id)")
    check(shown == [f"class-{root}" for root, _, _ in classes], f"{facts.name}: a card for each picture, alike ones first: {shown[:5]}")
    check(view.run("return document.getElementById('twins').textContent") == f"Pictures that several records show: {len(classes):,}", f"{facts.name}: how many pictures")
    stays = {twin["record"]: twin["stays"] for twin in facts.twins}
    tile = lambda n: facts.rows[n][1]
    for root, alike, copies in classes[:5]:
        card = f"#class-{root}"
        to_card(view, card[1:])
        told = view.run(TEXT, card)
        check(told.startswith(f"Record {root}, tile {tile(root)}: "), f"{facts.name}: the head of {card}: {told[:80]}")
        check(not copies or plural(len(copies), "copy is removed", "copies are removed") in told, f"{facts.name}: the copies of {card}")
        check(not alike or plural(len(alike), "record looks like it and stays", "records look like it and stay") in told, f"{facts.name}: the alike ones of {card}")
        view.settle("for (const more of document.querySelectorAll(`${words[0]} .more`)) more.click()", card)
        rows = view.run("return [...document.querySelectorAll(`${arguments[0]} tr[data-copy]`)].map((row) => [...row.cells].map((cell) => cell.textContent))", card)
        others = any(stays[n] != root for n in copies)
        wanted = [[f"record {n}", tile(n)] + ([f"record {stays[n]}", tile(stays[n])] if others else []) for n in copies]
        check(rows == wanted, f"{facts.name}: the rows of {card}: {rows[:3]} and not {wanted[:3]}")
        drawn = view.run("return [...document.querySelectorAll(`${arguments[0]} canvas.tile`)].map((one) => Number(one.dataset.record))", card)
        check(drawn == ([n for one in alike[:8] for n in (root, one)] or [root]), f"{facts.name}: the tiles of {card}: {drawn}")
        for at, n in enumerate(alike[:2]):
            look_at_stored(view, facts, card, at, root, n)


def look_at_stored(view, facts, card, at, root, n):
    """Two records that look alike: what is stored in each, what is marked as other, and in what sentence."""
    rows = view.run("""return [...document.querySelectorAll(`${arguments[0]} .compared`)][arguments[1]].querySelectorAll("tbody tr").values().toArray().map((row) =>
        [...row.cells].map((cell) => cell.textContent).concat(row.querySelectorAll("mark").length))""", card, at)
    shown = {name: (left, right, word, marks) for name, left, right, word, marks in rows}
    records = {}
    for side, record in enumerate((root, n)):
        signed, mode, ends, partition, indices = facts.fields(record)
        moved = transformed(signed, mode, ends)
        wanted = {"format": "signed" if signed else "unsigned", "mode": str(mode), "partition": "one region" if partition is None else str(partition)}
        wanted |= {f"indices {row}": " ".join(map(str, some)) for row, some in enumerate(indices)}
        for e in range(4):
            wanted[f"endpoint {e}"] = " ".join(map(str, ends[e])) if e < len(ends) else "none"
            wanted[f"endpoint {e} transformed"] = " ".join(map(str, moved[e])).replace("-", "−") if e < len(ends) else "none"
        block = facts.store[24 * record + 8:24 * record + 24]
        wanted |= {f"bytes {k} to {k + 3}": block[k:k + 4].hex(" ").upper() for k in range(0, 16, 4)}
        wanted = {name: words for name, words in wanted.items() if name in shown or words != "none"}
        seen = {name: cells[side] for name, cells in shown.items()}
        check(seen == wanted, f"{facts.name}: what is stored in record {record}: {sorted(set(seen.items()) ^ set(wanted.items()))}")
        records[side] = (mode, moved, partition, indices, signed)
    for name, (left, right, word, marks) in shown.items():
        check((word == "differs") == (left != right) and (marks > 0) == (left != right), f"{facts.name}: {name} of {card} is marked where it differs: {word}")
    a, b = records[0], records[1]
    told = view.run("return document.querySelectorAll(`${arguments[0]} .difference`)[arguments[1]].textContent", card, at)
    if a[0] != b[0] and a[1:] == b[1:] and PRECISION[a[0]] == PRECISION[b[0]]:
        check(told.startswith("Other mode, same endpoints"), f"{facts.name}: other mode, same endpoints: {told}")
    elif a[1:] != b[1:]:
        check(not told.startswith("Other mode, same endpoints"), f"{facts.name}: the endpoints are other ones: {told}")
    for which, name in ((0, "mode"), (2, "partition"), (3, "indices")):
        check(not told.startswith("Same picture, other ") or (name in told) == (a[which] != b[which]), f"{facts.name}: {name} of {card}: {told}")


def look_at_endpoints(view, facts, page):
    """The transform of the page's script, of every record: by the rule once more, and by the picture that the endpoints give."""
    shown = [n for n, kind in enumerate(facts.kinds) if kind in ("stays", "copy", "alike")]
    told = view.run("return arguments[0].map((n) => { const f = records.fieldsOf(n); return [f[0], f[1], range(2 * regionsOf(f)).map((e) => storedEndpoint(f, e)), endpointsOf(f), indicesOf(f)]; })", shown)
    for n, (form, mode, stored, moved, indices) in zip(shown, told):
        check(moved == transformed(form == 1, mode, stored), f"{facts.name}: record {n}, mode {mode}: {stored} is {transformed(form == 1, mode, stored)} after the transform, and told {moved}")
        check(shows(moved, mode, form == 1, indices, halves(facts.values[n])), f"{facts.name}: record {n}, mode {mode}: the endpoints {moved} do not give its picture")


# ---- colours


def look_at_colours(view, facts, page):
    """All pixels of a few tiles at three exposures, off their marks; the amount below zero in its corner; and each card at its own exposure."""
    by_exposure = {own_exposure(facts.values[root]): (root, alike) for root, alike, _ in facts.classes()}
    for root, alike in list(by_exposure.values())[-3:]:
        card = f"class-{root}"
        to_card(view, card)
        for n in [root, *alike[:1]]:
            seen, top = set(), max(abs(v) for v in facts.values[n] if abs(v) < 1e9)
            own = own_exposure(facts.values[n])
            for way, stops in (("one", own), ("one", -12.5), ("one", -16), ("own", own), ("own", own + 2.5)):
                view.settle(WAY, way)
                view.settle(EXPOSE, stops - own if way == "own" else stops)
                places = [(k % 4 * LARGE + 3, k // 4 * LARGE + 12) for k in range(16)]
                corners = [(k % 4 * LARGE + 14, k // 4 * LARGE + 13) for k in range(16)]
                drawn = view.run(COLOURS, card, n, places + corners)
                for k in range(16):
                    triple = facts.pixel(n, k)
                    wanted = [screen(v, stops) for v in triple]
                    check(near(wanted, drawn[k]), f"{facts.name}: record {n}, pixel {k} at {stops} stops ({way}) is {wanted}, and drawn {drawn[k]}")
                    below = [-v if v < 0 and v > -1e9 else 0 for v in triple]
                    if any(below) and -1e9 < min(triple):
                        wanted = [screen(v, stops) for v in below]
                        check(near(wanted, drawn[16 + k]), f"{facts.name}: record {n}, pixel {k} at {stops} stops is {wanted} below zero, and drawn {drawn[16 + k]}")
                seen.add(json.dumps(drawn))
            if 0 < top < 60000:
                check(len(seen) > 1, f"{facts.name}: record {n} changes with the exposure")
        view.settle(EXPOSE, 0)
        told = view.run(TEXT, f"#{card} .exposed")
        sign = "+" if own > 0 else "−" if own < 0 else ""
        check(told.startswith(f"Drawn at {sign}{abs(own)} stop"), f"{facts.name}: {card} says its own exposure with its sign, {own}: {told}")


def look_at_marks(view, facts, page):
    """A pixel that is above white has the mark in its corner, and one that is not has none."""
    view.settle(WAY, "one")
    for root, _, _ in facts.classes()[:2]:
        to_card(view, f"class-{root}")
        for stops in (-16, 8):
            view.settle(EXPOSE, stops)
            drawn = view.run(COLOURS, f"class-{root}", root, [(k % 4 * LARGE + 20, k // 4 * LARGE + 4) for k in range(16)])
            for k in range(16):
                triple = facts.pixel(root, k)
                if min(triple) < 0:
                    continue
                above = any(v * 2.0 ** stops > 1 for v in triple)
                wanted = [0, 0, 0] if above else [screen(v, stops) for v in triple]
                check(near(wanted, drawn[k]), f"{facts.name}: record {root}, pixel {k} at {stops} stops is {'' if above else 'not '}marked as above white")
    view.settle(WAY, "own")


# Two tiles that differ in one value, drawn in false colours: the largest difference of a point's channels.
FALSE_APART = """
return arguments[0].map(([pattern, other, at]) => {
  const [a, b] = [pattern, other].map((one) => { const patterns = new Uint16Array(48).fill(0x3C00); patterns[at] = one;
    const canvas = document.createElement("canvas"); drawTile(canvas, patterns, { way: "false" }, arguments[1]); return canvas.getContext("2d").getImageData(0, 0, canvas.width, canvas.height).data; });
  let most = 0; for (let k = 0; k < a.length; k += 4) most = Math.max(most, Math.hypot(a[k] - b[k], a[k + 1] - b[k + 1], a[k + 2] - b[k + 2])); return most; });
"""


def look_at_false_colours(view, facts, page):
    """In false colours two tiles that differ always look different, and a stop is a colour."""
    chance = random.Random(4)
    patterns = [chance.randrange(0x7C00) for _ in range(60)]
    pairs = [(one, one ^ 1 << bit, chance.randrange(48)) for one, bit in zip(patterns, 6 * list(range(10)))]
    pairs += [(one, one + 1024, 0) for one in patterns if one < 0x7800] + [(one, one | 0x8000, 47) for one in patterns[:10]]
    for side in (LARGE, PRINTED):
        for pair, apart in zip(pairs, view.run(FALSE_APART, pairs, side)):
            check(apart >= APART, f"{facts.name}: in false colours, at {side} points, {pair} are {apart:.0f} apart")
    check(view.run("return new Set(range(65536).map((p) => [p >> 15, ...stepsOf(p)].join())).size") == 65536, f"{facts.name}: each pattern has false colours of its own")
    steps = [[int(colour[k:k + 2], 16) for k in (1, 3, 5)] for colour in view.run("return STEPS")]
    least = min(sum((x - y) ** 2 for x, y in zip(a, b)) ** 0.5 for k, a in enumerate(steps) for b in steps[:k])
    check(len(steps) == 32 and least >= APART, f"{facts.name}: two false colours are {least:.0f} apart")
    for root, _, _ in facts.classes()[:1]:
        to_card(view, f"class-{root}")
        view.settle(WAY, "false")
        check(view.run("return document.getElementById('exposure').disabled"), f"{facts.name}: false colours have no exposure")
        for c in range(3):
            drawn = view.run(COLOURS, f"class-{root}", root, [(k % 4 * LARGE + 8 * c + 1, k // 4 * LARGE + 2) for k in range(16)])
            for k in range(16):
                pattern = halves(facts.values[root])[3 * k + c]
                check(near(drawn[k], steps[pattern >> 10 & 31]), f"{facts.name}: record {root}, pixel {k}: the stop of {pattern:04X} is drawn {drawn[k]}")
    view.settle(WAY, "own")


# ---- hands


def look_at_hands(view, facts, page):
    """The slider by its keys, a pixel by hover, by a tap and by the arrow keys."""
    if not facts.twins:
        return
    n = facts.classes()[0][0]
    card = f"class-{n}"
    to_card(view, card)
    view.settle(WAY, "one")
    view.settle(EXPOSE, -4)
    view.keys("#exposure", "\uE014\uE014")
    check(view.run("return document.getElementById('exposure').value") == "-3.5", f"{facts.name}: the slider goes by its keys")
    check(view.run("return document.getElementById('white').textContent") == "−3.5 stops: white is 11.3137", f"{facts.name}: the slider tells what white is")
    view.settle(EXPOSE, 3)
    check(view.run("return document.getElementById('white').textContent") == "+3 stops: white is 0.125", f"{facts.name}: stops have their sign")
    view.settle(WAY, "own")
    to_card(view, card)
    box = view.run("const box = document.querySelector(arguments[0]).getBoundingClientRect(); return [box.x, box.y, box.width, box.height]", f"#{card} canvas.tile")
    for tap, x, y, k in ((False, 0.6, 0.4, 6), (True, 0.9, 0.1, 3)):
        view.point(round(box[0] + x * box[2]), round(box[1] + y * box[3]), tap)
        told = view.run("return document.querySelector(arguments[0]).textContent", f"#{card} .readout")
        patterns = [struct.pack("<e", v)[::-1].hex().upper() for v in facts.pixel(n, k)]
        check(f"column {k % 4}, row {k // 4}" in told and re.findall(r"\(([0-9A-F]{4})\)", told) == patterns, f"{facts.name}: {'a tap' if tap else 'hover'} tells the triple: {told}, {patterns}")
    view.keys(f"#{card} canvas.tile", "\uE015")
    told = view.run("return document.querySelector(arguments[0]).textContent", f"#{card} .readout")
    check(re.search("column [0-3], row [0-3]: red", told), f"{facts.name}: the arrow keys tell a pixel: {told}")
    view.settle("[...document.querySelectorAll(words[0])].find((one) => one.textContent.includes('48 values')).open = true", f"#{card} details")
    values = view.run("return document.querySelectorAll(arguments[0] + ' .folds details[open] tbody td').length", f"#{card}")
    check(values == 48, f"{facts.name}: all values are there in numbers: {values}")


def look_at_ways(view, facts, page):
    """To a record by its number and by a link, and back to where one was; the filters."""
    if not facts.rows:
        return
    last = len(facts.rows) - 1
    view.settle("location.hash = ''")
    view.settle("document.getElementById('removed').scrollIntoView()")
    was = view.run("return window.scrollY")
    view.settle("const box = document.getElementById('number'); box.value = words[0]; box.focus({ preventScroll: true }); document.querySelector('#go button').click()", last)
    check(view.run("return document.activeElement.textContent").startswith(f"Record {last}, tile {facts.rows[last][1]}"), f"{facts.name}: to record {last} by its number")
    top = view.run("return document.activeElement.getBoundingClientRect().top")
    check(0 <= top < 700, f"{facts.name}: record {last} is in sight: {top}")
    view.settle("document.querySelector('#single button').click()")
    now = view.run("return [window.scrollY, document.activeElement.id, document.getElementById('single').hidden]")
    check(abs(now[0] - was) < 3 and now[1:] == ["number", True], f"{facts.name}: back to where one was: {now} and not {was}")
    view.settle("const box = document.getElementById('number'); box.value = words[0]; document.querySelector('#go button').click()", last + 1)
    check(view.run("return document.getElementById('single').hidden"), f"{facts.name}: there is no record {last + 1}")
    for root, alike, copies in facts.classes()[:1]:
        n = (alike + copies)[-1]
        view.settle("location.hash = `#record-${words[0]}`", n)
        view.settle("[...document.querySelectorAll('#single a')].find((one) => one.hash.startsWith('#class')).click()")
        check(view.run("return document.activeElement.closest('.class')?.id") == f"class-{root}", f"{facts.name}: from record {n} to its card")
        look_at_filter(view, facts, facts.rows[n][1], "")
    for kind in ("", "a", "c"):
        look_at_filter(view, facts, "", kind)
    for kind, letter in (("damaged", "d"), ("copy", "c")):
        if kind in facts.kinds:
            view.settle("const one = document.getElementById('sheet-kind'); one.value = words[0]; one.dispatchEvent(new Event('change')); one.scrollIntoView()", letter)
            seen = view.run("return [...document.querySelectorAll('.sheet canvas, .sheet a')].filter((one) => one.matches('a')).slice(0, 50).map((one) => Number(one.hash.split('-')[1]))")
            wanted = [n for n, one in enumerate(facts.kinds) if one == kind][:50]
            check(seen == wanted, f"{facts.name}: the sheet of {kind} records: {seen[:5]} and not {wanted[:5]}")
            view.settle("const one = document.getElementById('sheet-kind'); one.value = ''; one.dispatchEvent(new Event('change'))")


def look_at_filter(view, facts, which, kind):
    view.settle("document.getElementById('kind').value = words[0]; document.getElementById('which').value = words[1]; filterClasses()", kind, which)
    seen = view.run("return [...document.querySelectorAll('.class:not([hidden])')].map((card) => Number(card.id.split('-')[1]))")
    named = lambda numbers: not which or any(which in (str(n), facts.rows[n][1]) for n in numbers)
    wanted = [root for root, alike, copies in facts.classes() if (not kind or (alike if kind == "a" else copies)) and named([root, *alike, *copies])]
    check(seen == wanted, f"{facts.name}: cards by '{kind}' and '{which}': {seen[:5]} and not {wanted[:5]}")
    view.settle("document.getElementById('kind').value = document.getElementById('which').value = ''; filterClasses()")


# ---- lists


LIST = "return [...document.querySelectorAll(`${arguments[0]} ~ .list tbody tr`)].map((row) => [...row.cells].map((cell) => cell.textContent))"


def look_at_lists(view, facts, page):
    rows = view.run(LIST, "#faults")
    wanted = [[str(n), facts.rows[n][1], "damaged" if kind == "damaged" else f"refused, {facts.rows[n][2]}"] for n, kind in enumerate(facts.kinds) if kind in ("damaged", "refused")]
    check(rows == wanted, f"{facts.name}: damaged and refused records: {rows[:3]} and not {wanted[:3]}")
    check(view.run("return document.getElementById('faults').checkVisibility()") == bool(wanted), f"{facts.name}: the list of damage is there where there is some")
    rows = view.run(LIST, "#removed")
    wanted = [[str(twin["record"]), str(twin["tile"]), str(twin["stays_tile"]), str(twin["stays"])] for twin in facts.copies]
    check(rows == wanted, f"{facts.name}: the removed tiles: {rows[:3]} and not {wanted[:3]}")
    rows = view.run(LIST, "#infinite")
    wanted = [[n, tile, many, f"{pixel}, {channel}"] for n, tile, many, pixel, channel in facts.infinities]
    check(rows == wanted, f"{facts.name}: minus infinity: {rows[:3]} and not {wanted[:3]}")


def look_at_sheet(view, facts, page):
    view.settle("for (const list of document.getElementById('sheet').children) scene.parts.get(list).show()")
    kinds = view.run("return [...document.querySelectorAll('.sheet li')].map((item) => item.className)")
    check(kinds == facts.kinds, f"{facts.name}: the sheet has {kinds[:9]} and not {facts.kinds[:9]}")
    signs = view.run("return [...document.querySelectorAll('.sheet li')].map((item) => (item.querySelector('b') || {}).textContent || '')")
    check(signs == [SIGNS[kind] for kind in facts.kinds], f"{facts.name}: the signs on the sheet: {signs[:9]}")
    edges = view.run("return [...document.querySelectorAll('.sheet li')].map((item) => item.className + ' ' + getComputedStyle(item.querySelector('a > *')).borderTopStyle + getComputedStyle(item.querySelector('a > *')).borderTopWidth)")
    check(len({edge.split()[1] for edge in edges}) == len(set(facts.kinds)), f"{facts.name}: the edges on the sheet: {sorted(set(edges))}")
    for n in sorted({0, len(facts.rows) - 1}) if facts.rows else []:
        view.settle(f"document.querySelectorAll('.sheet a')[{n}].click()")
        told = view.run("return document.activeElement.textContent")
        check(told.startswith(f"Record {n}, tile {facts.rows[n][1]}"), f"{facts.name}: a click leads to record {n}: {told}")


# ---- who looks, and at what


def look_at_names(view, facts, page):
    """What a screen reader is given: every link, button, picture and slider has a name, headings go down by one, the language is said."""
    nodes = view.command("Accessibility.getFullAXTree")["nodes"]
    for node in nodes:
        role = node.get("role", {}).get("value")
        if not node.get("ignored") and role in ("link", "button", "slider", "image", "img", "article", "region", "navigation", "DisclosureTriangle", "combobox", "textbox", "spinbutton", "radio"):
            check(node.get("name", {}).get("value"), f"{facts.name}: a {role} without a name")
    levels = view.run("return [...document.querySelectorAll('h1, h2, h3')].filter((head) => head.checkVisibility()).map((head) => Number(head.tagName[1]))")
    check(levels[:1] == [1] and levels.count(1) == 1 and all(b - a <= 1 for a, b in zip(levels, levels[1:])), f"{facts.name}: headings {levels}")
    check(view.run("return document.documentElement.lang") == "en", f"{facts.name}: the language is said")
    doubled = view.run("const ids = [...document.querySelectorAll('[id]')].map((one) => one.id); return ids.filter((id, k) => ids.indexOf(id) !== k)")
    check(doubled == [], f"{facts.name}: names that are there twice: {doubled}")


CONTRASTS = """
const light = (text) => { const [r, g, b] = text.match(/[\\d.]+/g).slice(0, 3).map((v) => v / 255).map((v) => v <= 0.04045 ? v / 12.92 : ((v + 0.055) / 1.055) ** 2.4); return 0.2126 * r + 0.7152 * g + 0.0722 * b; };
const ground = (one) => { for (; one; one = one.parentElement) { const colour = getComputedStyle(one).backgroundColor; if (!/, 0\\)$|transparent/.test(colour)) return colour; } return "rgb(255, 255, 255)"; };
const found = [];
for (const one of document.querySelectorAll("h1, h2, h3, p, a, dt, dd, li, td, th, mark, summary, button, output, label, legend, figcaption, pre, .word, b")) {
  if (!one.checkVisibility() || !one.textContent.trim()) continue;
  const [a, b] = [light(getComputedStyle(one).color), light(ground(one))];
  const contrast = (Math.max(a, b) + 0.05) / (Math.min(a, b) + 0.05);
  if (contrast < arguments[0]) found.push(`${one.tagName} ${one.className} ${one.textContent.slice(0, 20)} ${contrast.toFixed(2)}`);
}
return found;
"""


def look_at_width(view, facts, how):
    check(view.run("return document.documentElement.scrollWidth <= window.innerWidth"), f"{facts.name}: nothing is wider than the page, {how}")
    low = view.run(CONTRASTS, CONTRAST)
    check(low == [], f"{facts.name}: text is hard to read, {how}: {low[:5]}")


def look_at_phone(view, facts, page):
    """Nothing is too wide, tiles can be tapped, and the bar leaves room."""
    view.look(width=360, height=740, mobile=True)
    view.open(page)
    view.settle()
    look_at_width(view, facts, "on a phone")
    view.settle("for (const part of scene.parts.values()) part.ensure()")
    small = view.run("return [...document.querySelectorAll('.sheet a, canvas.tile')].slice(0, 40).map((one) => one.getBoundingClientRect()).filter((box) => Math.min(box.width, box.height) < arguments[0]).length", TAP)
    check(small == 0, f"{facts.name}: {small} tiles are too small to tap")
    check(view.run("return document.querySelector('.bar').offsetHeight") < 180, f"{facts.name}: the bar leaves room on a phone")


def sheets(paper):
    """How many sheets a PDF of Chromium has."""
    return len(re.findall(rb"/Type\s*/Page\b(?!s)", paper))


def look_at_print(view, facts, page):
    """In print: no slider, the signature on the first sheet, records that look alike drawn at two exposures, all records, all removed tiles."""
    view.open(page)
    view.look(width=SHEET_WIDTH, height=SHEET_HEIGHT, media="print")
    view.settle()
    hidden = view.run("return ['.bar', '.class', 'nav', '.readout', '.command button', '#audit'].filter((one) => document.querySelector(one) && document.querySelector(one).checkVisibility())")
    check(hidden == [], f"{facts.name}: printed, though it is for the screen: {hidden}")
    end = view.run("return document.querySelector('.sign').getBoundingClientRect().bottom + window.scrollY")
    check(end <= SHEET_HEIGHT, f"{facts.name}: the signature is on the first sheet: it ends at {end} of {SHEET_HEIGHT}")
    check(re.findall("Name|Date|Signature", view.run(TEXT, ".sign")) == 2 * ["Name", "Date", "Signature"], f"{facts.name}: room for two to sign")
    alike = [twin["record"] for twin in facts.alike][:60]
    drawn = view.run("return [...document.querySelectorAll('#alikes > div')].map((one) => [Number(one.dataset.alike), one.innerText])")
    check([n for n, _ in drawn] == alike and all(f"Record {n}, tile {facts.rows[n][1]}, looks like record" in told for n, told in drawn), f"{facts.name}: the alike records in print: {drawn[:2]}")
    check(view.run("return document.querySelectorAll('.sheet li').length") == len(facts.rows), f"{facts.name}: all records on the printed sheet")
    check(view.run("return [...document.querySelectorAll('#removed ~ .list tbody tr')].filter((row) => row.checkVisibility()).length") == len(facts.copies), f"{facts.name}: all removed tiles in print")
    for n in alike[-2:]:
        for at, stops in enumerate((own_exposure(facts.values[n]), own_exposure(facts.values[n]) + 6)):
            drawn = view.run("const canvas = document.querySelectorAll(arguments[0])[arguments[1]]; return arguments[2].map(([x, y]) => [...canvas.getContext('2d').getImageData(x, y, 1, 1).data].slice(0, 3))",
                             f"#alikes canvas[data-record='{n}']", at, [(k % 4 * PRINTED + 1, k // 4 * PRINTED + 6) for k in range(16)])
            for k in range(16):
                wanted = [screen(v, stops) for v in facts.pixel(n, k)]
                check(near(wanted, drawn[k]), f"{facts.name}: printed at {stops} stops, record {n}, pixel {k} is {wanted}, and drawn {drawn[k]}")
    look_at_width(view, facts, "in print")


# The looks by their names, in the order in which they are done; those of a page that is open on a desktop.
LOOKS = {
    "head": look_at_head,
    "next": look_at_next,
    "lists": look_at_lists,
    "cards": look_at_cards,
    "endpoints": look_at_endpoints,
    "colours": look_at_colours,
    "marks": look_at_marks,
    "false colours": look_at_false_colours,
    "hands": look_at_hands,
    "sheet": look_at_sheet,
    "ways": look_at_ways,
    "names": look_at_names,
}


def look_at_page(view, path, page, looks=LOOKS):
    """Opens a page and does the looks; then no error is in the console."""
    facts = facts_of(path)
    view.look()
    view.open(page)
    check(view.run("return document.documentElement.dataset.ready") == "yes", f"{facts.name}: the page is ready")
    check(view.run("return performance.getEntriesByType('resource').length") == 0, f"{facts.name}: nothing else is loaded")
    for look in looks:
        LOOKS[look](view, facts, page)
    errors = view.errors()
    check(errors == [], f"{facts.name}: no error in the console: {errors}")


def look_at_sizes(view, path, page, shots):
    """Light and dark, a phone, paper; a picture of each is left."""
    facts = facts_of(path)
    for scheme in ("light", "dark"):
        view.look(scheme=scheme)
        view.open(page, "#twins")
        view.settle()
        look_at_width(view, facts, scheme)
        view.shot(shots / f"{page.stem}-{scheme}.png")
    look_at_phone(view, facts, page)
    view.shot(shots / f"{page.stem}-phone.png", whole=True)
    look_at_print(view, facts, page)
    view.shot(shots / f"{page.stem}-print.png", whole=True)
    view.look()
    view.settle()
    errors = view.errors()
    check(errors == [], f"{facts.name}: no error in the console: {errors}")
