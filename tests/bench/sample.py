"""Of 17-byte records on standard input, COUNT blocks by chance: sample.py COUNT mixed|two-region|one-region

None of them is reserved; `mixed` has all fourteen modes.
"""
import random
import sys

ONE_REGION = {0b00011, 0b00111, 0b01011, 0b01111}
RESERVED = {0b10011, 0b10111, 0b11011, 0b11111}


def main(count, group):
    data = sys.stdin.buffer.read()
    codes = {"mixed": set(range(32)) - RESERVED, "two-region": set(range(32)) - RESERVED - ONE_REGION, "one-region": ONE_REGION}[group]
    blocks = [data[at + 1:at + 17] for at in range(0, len(data), 17) if data[at + 1] % 32 in codes]
    sys.stdout.buffer.write(b"".join(random.Random(7).sample(blocks, int(count))))


main(*sys.argv[1:])
