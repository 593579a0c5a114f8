"""The manual page and the completions that tools/make-help writes: each command and option is in them, and the shells take them."""
import shutil
import subprocess
import sys

from harness import ROOT, count, is_wrong, run, skipped, wanted

MANUAL, BASH, ZSH = "share/man/man1/knot.1", "share/bash-completion/completions/knot", "share/zsh/site-functions/_knot"
ASK_BASH = 'source "$1"; shift; COMP_WORDS=("$@"); COMP_CWORD=$(($# - 1)); _knot; printf "%s\\n" "${COMPREPLY[@]}"'


def expect(what, so, why=""):
    count()
    if not so:
        is_wrong(f"manual and completions, {what}", why)


def declared():
    sys.path.insert(0, str(ROOT))
    from commands import house
    return {name: house.command(name).LINE for name in house.COMMANDS}


def made(folder):
    """What is written, twice: the same bytes."""
    for name in ("first", "second"):
        subprocess.run([ROOT / "tools/make-help", folder / name], check=True)
    files = sorted(str(path.relative_to(folder / "first")) for path in (folder / "first").rglob("*") if path.is_file())
    expect("the files", files == sorted([MANUAL, BASH, ZSH]), files)
    expect("twice the same", all((folder / "first" / name).read_bytes() == (folder / "second" / name).read_bytes() for name in files))
    return folder / "first"


def completed(script, *words):
    return run(["bash", "--norc", "-c", ASK_BASH, "bash", script, "knot", *words]).stdout.decode().split()


def by_bash(script):
    ran = run(["bash", "-n", script])
    expect("bash -n", (ran.returncode, ran.stderr) == (0, b""), ran.stderr)
    lines = declared()
    expect("the commands in bash", set(lines) | {"help", "--version", "--check"} <= set(completed(script, "")), completed(script, ""))
    expect("help in bash", completed(script, "help", "") == list(lines))
    for name, line in lines.items():
        found = completed(script, name, "-")
        expect(f"options of {name} in bash", sorted(found) == sorted([*(option.name for option in line.options), "-h", "--help"]), found)
    for words, answer in {
        ("cle",): "clean",
        ("clean", "--re"): "--receipt",
        ("clean", "--receipt", ""): "",
        ("clean", "--", "-"): "",
        ("check", "--form", ""): "24 32",
        ("check", "--form", "=", "3"): "32",
        ("record", ""): "take put append make",
        ("record", "--as-store", "p"): "put",
        ("record", "make", "7", "u"): "unsigned",
        ("record", "take", "store", "u"): "",
        ("fields", "a.block", "s"): "signed",
        ("dds", "--make", "5", "3", ""): "unsigned signed bc7 bc7-srgb",
        ("dds", "--relabel", ""): "signed unsigned",
        ("dds", "--relabel", "signed", "s"): "",
        ("export", "--kind", "p"): "pfm png pam",
        ("place", "a.places", "3", ""): "+X -X +Y -Y +Z -Z none",
        ("probe", "a.probe", "2", "+"): "+X +Y +Z",
        ("dds", "5", "3", ""): "",
        ("nothing", ""): "",
    }.items():
        expect(f"{words} in bash", completed(script, *words) == answer.split(), completed(script, *words))


def by_zsh(script):
    text = script.read_text()
    expect("the head for zsh", text.startswith("#compdef knot\n"))
    for name, line in declared().items():
        part = text.partition(f"\n    {name})\n")[2].partition(";;")[0]
        expect(f"{name} in zsh", f"\n        '{name}:" in text and part)
        expect(f"options of {name} in zsh", all(f"'{option.name}[" in part for option in line.options) and "{-h,--help}" in part, part)
    if shutil.which("zsh"):
        ran = run(["zsh", "-n", script])
        expect("zsh -n", (ran.returncode, ran.stderr) == (0, b""), ran.stderr)
    else:
        skipped.append("the completion for zsh: there is no zsh")


def by_man(page):
    if not shutil.which("man") or not shutil.which("groff"):
        skipped.append("the manual page: there is no man or no groff")
        return
    ran = run(["man", "--warnings", "--encoding=ascii", "-l", page], env={"PATH": "/usr/bin:/bin", "LC_ALL": "C", "MANWIDTH": "200", "MAN_KEEP_FORMATTING": ""})
    text = ran.stdout.decode()
    expect("man", (ran.returncode, ran.stderr) == (0, b""), ran.stderr)
    for name, line in declared().items():
        part = text.partition(f"\n   knot {name}\n")[2].partition("\n   knot ")[0]
        parts = [f"knot {name} ", *(form.text for form in line.forms), *(f"\n       {option.told()}" for option in line.options), *(f"$ {example}" for example in line.example.splitlines())]
        expect(f"{name} in the manual", part and all(each in part for each in parts), [each for each in parts if each not in part])


def manual_and_completions(folder):
    if not wanted("manual and completions"):
        return
    share = made(folder)
    by_bash(share / BASH)
    by_zsh(share / ZSH)
    by_man(share / MANUAL)
