"""`knot`, which starts this folder."""
import os
import sys

sys.path.insert(0, os.path.dirname(os.path.dirname(os.path.realpath(__file__))))


def main():
    if sys.version_info < (3, 9):
        return f"knot: it needs Python 3.9, and python3 is {sys.version.split()[0]}"
    try:
        from commands import house
    except Exception as error:
        return f"knot: it is not whole: {type(error).__name__}: {error}"
    return house.main(sys.argv[1:])


ended = main()
if isinstance(ended, str):
    try:
        os.write(2, (ended.replace("\n", " ") + "\n").encode(errors="backslashreplace"))
    except OSError:
        pass
    ended = 3
# Nothing is left to be written: so nothing can fail on the way out.
os._exit(ended)
