#!/usr/bin/env python3
# Counts what traces cost, as docs/PERFORMANCE.md tells: `tools/costs.py PROGRAM [PEER]` plays each full trace made here,
# compares what the two print, and prints a line of instructions counted by valgrind.
import random, re, struct, subprocess, sys

FULL = 32768


def record(kind, payload):
    return struct.pack(">H", kind << 13 | len(payload)) + payload


def field(ms):
    # the long form of a time field, ms milliseconds into day 60,000
    hours, rest = divmod(ms, 3_600_000)
    minutes, rest = divmod(rest, 60_000)
    seconds, ms = divmod(rest, 1000)
    bits = 1 << 47 | 60_000 << 30 | 1 << 27 | hours << 22 | minutes << 16 | seconds << 10 | ms
    return bits.to_bytes(6, "big")


def reading(ms):
    return record(1, field(ms))


def header(transport, size, name, *parameters):
    extension = b"".join((bytes([0xCC, len(name) + 1, 0]) + name,) + parameters)
    core = size << 28 | (7 + len(extension)) << 15 | 2 << 9 | 1
    return record(2, struct.pack(">H", transport) + core.to_bytes(7, "big") + extension)


def trigger(ms):
    return b"\xC5\x06" + field(ms)


def expiry(ms):
    return b"\xC4\x06" + field(ms)


def category(a, b):
    return bytes([0xE5, 2, a, b])


def segment(transport, number, data, last=False):
    return record(3, struct.pack(">HH", transport, last << 15 | number) + data)


def whole(pieces):
    # as many whole records as a trace holds
    out = bytearray()
    for piece in pieces:
        if len(out) + len(piece) > FULL:
            break
        out += piece
    return bytes(out)


def slides(dice):
    yield reading(0)
    n = 0
    while True:
        n += 1
        name = b"s%d" % (n % 40)
        yield header(n % 65536, 4, name, trigger(1000 * n + 500), expiry(1000 * n + 60_000), category(1 + n % 5, n % 7))
        yield segment(n % 65536, 0, b"abcd", True)
        yield reading(1000 * n + dice.randrange(1000))


def plain(_):
    for n in range(FULL):
        yield header(n % 65536, 3, b"p%d" % (n % 100))
        yield segment(n % 65536, 0, b"abc", True)


def shuffled(dice):
    for n in range(FULL):
        yield header(n % 65536, 64, b"x")
        order = list(range(64))
        dice.shuffle(order)
        for k in order:
            yield segment(n % 65536, k, bytes([k]), k == 63)


def crowded(_):
    # more slides with triggers far ahead than there are slots, none of them cleared before
    yield reading(0)
    for n in range(FULL):
        yield header(n % 65536, 1, b"%d" % (n % 50), trigger(80_000_000 + n))
        yield segment(n % 65536, 0, b"z", True)


def large(dice):
    yield reading(0)
    for n in range(FULL):
        yield header(n, 4000, b"big%d" % n, trigger(10 * n + 10))
        yield segment(n, 0, bytes(dice.randrange(256) for _ in range(3990)))
        yield segment(n, 1, b"0123456789", True)
        yield reading(10 * n + 15)


def each(piece):
    while True:
        yield piece


def set_first(piece):
    yield reading(0)
    yield from each(piece)


def inputs():
    dice = random.Random(1)
    sample = header(7, 3, b"A", trigger(1016))
    return [
        ("slides with triggers, expiries and categories", whole(slides(dice))),
        ("plain slides", whole(plain(dice))),
        ("bodies of 64 shuffled segments", whole(shuffled(dice))),
        ("a buffer full of waiting slides", whole(crowded(dice))),
        ("bodies of 4,000 bytes", whole(large(dice))),
        ("readings only", whole(reading(n) for n in range(FULL))),
        ("one header, repeated", whole(each(sample))),
        ("malformed records", whole(each(b"\0\0"))),
        ("refused settings", whole(each(b"\x20\0"))),
        ("the clock set, then refused readings", whole(set_first(b"\x20\0"))),
        ("nothing", b""),
    ]


def records(data):
    count, at = 0, 0
    while at < len(data):
        count += 1
        at += 2 + (struct.unpack(">H", data[at:at + 2])[0] & 0x1FFF if at + 2 <= len(data) else 0)
    return count


def cost(program, data):
    said = subprocess.run(["valgrind", "--tool=callgrind", "--callgrind-out-file=/dev/null", program], input=data, capture_output=True)
    return int(re.search(r"Collected : (\d+)", said.stderr.decode()).group(1)), said.stdout


def part(data, share):
    # the first records of a trace, as many as that share of them
    left, at = records(data) * share // 4, 0
    for _ in range(left):
        at += 2 + (struct.unpack(">H", data[at:at + 2])[0] & 0x1FFF)
    return data[:at]


def main():
    programs = sys.argv[1:]
    for name, data in inputs():
        told = [cost(p, data) for p in programs]
        same = "" if len({out for _, out in told}) == 1 else " DIFFERS"
        quarters = " | ".join(f"{cost(programs[0], part(data, share))[0]:,}" for share in (1, 2))
        print(f"| {name} | {records(data):,} | " + " | ".join(f"{n:,}" for n, _ in told) + f" | a quarter, half: {quarters} |{same}", flush=True)


if __name__ == "__main__":
    main()
