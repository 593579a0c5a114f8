"""What knot place, knot unplace and knot probe --make share: what a program makes of a store, whole or not at all."""
from . import house


def answered(program, wish, length):
    """A program's number, and what it made: `length` bytes where the number is 0, else nothing."""
    def is_whole(answer):
        return answer[:1] == b"\0" and len(answer) == 1 + length or len(answer) == 1 and answer != b"\0"

    answer = house.ask(program, wish, is_whole)
    return answer[0], answer[1:]


def move(asked, program, read, size, moved_size):
    """Moves the store of records of `size` bytes that `read` reads from the one file to the other, as records of `moved_size`."""
    house.keep_apart(asked.made, asked.given)
    store = read(asked.given, asked.as_store)
    count, rest = divmod(len(store), size)
    number, moved = answered(program, store, count * moved_size if rest == 0 else -1)
    if number != 0:
        raise house.Refused(number, f"store refused {number}\n")
    house.write_whole(asked.made, moved)
    house.say(f"moved {count}\n", asked.made)
