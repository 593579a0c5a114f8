"""The page about a survey: stores, damage, copies within and across stores, with the first tiles drawn."""
import base64
import html
import os
import struct
import zlib

from . import house

# how many groups of copies and of alike records are drawn; the others are counted
DRAWN = 200
STYLE = """
:root { color-scheme: light dark; --line: #8886; --soft: #8881 }
body { font: 16px/1.5 system-ui, sans-serif; margin: 0 auto; max-width: 70rem; padding: 1rem }
table { border-collapse: collapse; width: 100%; font-variant-numeric: tabular-nums }
th, td { border-bottom: 1px solid var(--line); padding: .25rem .6rem; text-align: left; overflow-wrap: anywhere }
td.n, th.n { text-align: right; white-space: nowrap }
img { width: 48px; height: 48px; image-rendering: pixelated; border: 1px solid var(--line); vertical-align: middle }
.group { background: var(--soft); padding: .5rem .8rem; margin: .5rem 0; border-radius: .4rem }
.tile { display: inline-block; margin: .25rem 1rem .25rem 0 }
"""


def png_of(values):
    """A tile's 48 half-floats as a PNG of 4 by 4 pixels: its brightest value is white."""
    numbers = [max(0.0, min(number, 65504.0)) if number == number else 0.0 for (number,) in struct.iter_unpack("<e", values)]
    white = max(numbers) or 1.0
    rows = b"".join(b"\0" + bytes(srgb(number / white) for number in numbers[12 * y:12 * y + 12]) for y in range(4))

    def part(kind, data):
        return struct.pack(">I", len(data)) + kind + data + struct.pack(">I", zlib.crc32(kind + data))

    return b"\x89PNG\r\n\x1a\n" + part(b"IHDR", struct.pack(">IIBBBBB", 4, 4, 8, 2, 0, 0, 0)) + part(b"IDAT", zlib.compress(rows)) + part(b"IEND", b"")


def srgb(light):
    return round(255 * (12.92 * light if light <= 0.0031308 else 1.055 * light ** (1 / 2.4) - 0.055))


def picture(values, name):
    return f'<img alt="{html.escape(name)}" src="data:image/png;base64,{base64.b64encode(png_of(values)).decode()}">'


def counted(number, word):
    return f"{number:,} {word}{'' if number == 1 else 's'}"


def table(heads, rows):
    head = "".join(f'<th{" class=n" if right else ""}>{html.escape(name)}</th>' for name, right in heads)
    body = "".join("<tr>" + "".join(f'<td{" class=n" if right else ""}>{cell}</td>' for cell, (_, right) in zip(row, heads)) + "</tr>" for row in rows)
    return f"<table><thead><tr>{head}</tr></thead><tbody>{body}</tbody></table>"


def one(database, query):
    return next(iter(database.execute(query)))


def groups_of(database, view, key):
    """The first groups of a view, each a list of its rows, and how many groups there are."""
    rows = database.execute(f"SELECT name, number, tile, format, block, shown FROM {view} ORDER BY format, {key}, name, number")
    column = {"block": 4, "shown": 5}[key]
    groups, count, last = [], 0, None
    for row in rows:
        if (row[3], bytes(row[column])) != last:
            last, count = (row[3], bytes(row[column])), count + 1
            if count <= DRAWN:
                groups.append([])
        if count <= DRAWN:
            groups[-1].append(row)
    return groups, count


def drawn(groups, count, none):
    if not count:
        return f"<p>{none}</p>"
    made = []
    for group in groups:
        tiles = "".join(f'<span class="tile">{picture(bytes(shown), f"tile {tile}")} {html.escape(name)}, record {number}, tile {tile}</span>' for name, number, tile, _, _, shown in group[:24])
        rest = f"<p>and {counted(len(group) - 24, 'more record')}</p>" if len(group) > 24 else ""
        made.append(f'<div class="group">{tiles}{rest}</div>')
    left = f"<p>{counted(count - len(groups), 'more group')} not drawn.</p>" if count > len(groups) else ""
    return "".join(made) + left


def page_of(name, database):
    stores, records, refused, damaged, copies, alike, infinite = one(database, """
        SELECT COUNT(*), COALESCE(SUM(records), 0), COALESCE(SUM(refused), 0), COALESCE(SUM(damaged), 0), COALESCE(SUM(copies), 0),
        COALESCE(SUM(alike), 0), COALESCE(SUM(infinite), 0) FROM stores""")
    faulty = [(html.escape(path), "could not be read" if answer is None else f"refused, {answer}", html.escape(reason or "")) for path, answer, reason in
              database.execute("SELECT name, answer, reason FROM stores WHERE answer IS NULL OR answer > 0 ORDER BY name")]
    rows = [(html.escape(path), f"{count:,}", f"{bad:,}", f"{broken:,}", f"{same:,}", f"{like:,}", f"{24 * same:,}") for path, count, bad, broken, same, like in
            database.execute("SELECT name, records, refused, damaged, copies, alike FROM stores WHERE answer = 0 AND (refused > 0 OR damaged > 0 OR copies > 0 OR alike > 0) ORDER BY copies DESC, name")]
    across, across_count = groups_of(database, "copies_across_stores", "block")
    like, like_count = groups_of(database, "alike_across_stores", "shown")
    heads = [("store", False), ("records", True), ("refused", True), ("damaged", True), ("copies", True), ("alike", True), ("bytes that a clean-up frees", True)]
    parts = [
        f"<h1>Survey of {counted(stores, 'store')}</h1>",
        f"<p>{counted(damaged, 'record')} damaged and {counted(refused, 'record')} refused, of {counted(records, 'record')} in {html.escape(os.path.basename(name))}. "
        f"{counted(copies, 'copy') if copies == 1 else f'{copies:,} copies'} within stores, which clean-ups would remove: {24 * copies:,} bytes. {counted(alike, 'record')} only look alike. "
        f"{counted(infinite, 'value')} minus infinity.</p>",
        "<h2>Files that are no stores, or could not be read</h2>",
        table([("file", False), ("what", False), ("reason", False)], faulty) if faulty else "<p>None.</p>",
        "<h2>Stores with damage or twins</h2>",
        table(heads, rows) if rows else "<p>None.</p>",
        f"<h2>The same tile in several stores: {counted(across_count, 'group')}</h2>",
        "<p>Same format and same sixteen bytes. Nothing is deleted across stores: which one is needed is for a person to decide.</p>",
        drawn(across, across_count, "No tile is in two stores."),
        f"<h2>Tiles that look alike in several stores: {counted(like_count, 'group')}</h2>",
        "<p>Same format and same 48 values, but not all of the same bytes.</p>",
        drawn(like, like_count, "None."),
    ]
    return ('<!DOCTYPE html>\n<html lang="en"><head><meta charset="utf-8"><meta name="viewport" content="width=device-width">'
            '<meta http-equiv="Content-Security-Policy" content="default-src \'none\'; style-src \'unsafe-inline\'; img-src data:">'
            f"<title>Survey</title><style>{STYLE}</style></head><body>{''.join(parts)}</body></html>\n")
