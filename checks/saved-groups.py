#!/usr/bin/env python3
"""Reads the file of a saved group, by docs/LOG.md alone, and says what `dos resume` is to say of it.

  checks/saved-groups.py read GROUP LOG ROUND
      Ends with 0 where the file is a group that was saved from that log after so many rounds; else it
      prints what is wrong.
  checks/saved-groups.py vary DOS LOG GROUP
      Calls DOS with the file cut at each of its first 2000 lengths and at some of the others, with each
      of its first 2000 bytes changed to 0, to 255 and by one, and with a byte behind its end. It prints
      what differs from what is to come, and ends with 1 where something does.
"""

import hashlib
import struct
import subprocess
import sys
import tempfile

LIMIT = 83886080
PAGE = 4096
FIRST = 2000  # so many lengths and places are all tried
STEP = 1009  # and of the lengths behind them each so manieth
LIVE, ENDED, COLLECTED = range(3)
READY, RETRY, ASLEEP = range(3)
FREE, SHARED, OF = range(3)
FORMATS = {1: "<B", 2: "<H", 4: "<I"}


class Refused(Exception):
    pass


class Fields:
    """Takes field after field from a text."""

    def __init__(self, text):
        self.text = text
        self.place = 0

    def bytes(self, count):
        begin = self.place
        if len(self.text) - begin < count:
            raise Refused(f"short at {begin}")
        self.place += count
        return self.text[begin : self.place]

    def number(self, size, is_right=None):
        begin = self.place
        value = struct.unpack(FORMATS[size], self.bytes(size))[0]
        if is_right and not is_right(value):
            raise Refused(f"field at {begin}")
        return value


def within(low, high):
    return lambda n: low <= n <= high


def is_zero(n):
    return n == 0


def is_action(n):
    return n in (0, 1) or n % 2 == 0 and n < 0xF0000000


def is_pending(n):
    return not n & 1


def is_mask(n):
    return not n & 1 and not n & 1 << 9


def read_process(fields, group):
    process = {"parent": fields.number(4, within(0, group["processes given"]))}
    kind = process["kind"] = fields.number(1, within(LIVE, COLLECTED))
    process["status"] = fields.number(1, is_zero if kind == LIVE else None)
    if kind != LIVE:
        return process
    process["actions"] = [fields.number(4, is_action) for _ in range(31)]
    process["ends"] = []
    for _ in range(32):
        end = fields.number(1, within(0, 5))
        pipe = fields.number(1, within(0, 63) if end in (4, 5) else is_zero)
        process["ends"].append((end, pipe))
    count = fields.number(4, within(0, group["frames given"]))
    process["pages"] = []
    last = 0
    for _ in range(count):
        last = fields.number(4, within(last + 1, 0xEFFFF))
        frame = fields.number(4, within(0, group["frames given"] - 1))
        rights = fields.number(1, within(0, 3))
        shared = fields.number(1, within(0, 1))
        process["pages"].append((last, frame, rights, shared))
    return process


def read_registers(fields):
    for _ in range(32):
        fields.number(4)
    held = fields.number(1, within(0, 1))
    fields.number(4, None if held else is_zero)


def read_thread(fields, group, last):
    thread = {
        "number": fields.number(4, within(last + 1, group["threads given"])),
        "process": fields.number(4, within(1, group["processes given"])),
        "state": fields.number(1, within(READY, ASLEEP)),
    }
    read_registers(fields)
    fields.number(4)  # the budget
    fields.number(4, is_pending)
    fields.number(4, is_mask)
    for _ in range(fields.number(1, within(0, 4))):
        read_registers(fields)
        fields.number(4, is_mask)
    return thread


def read_frame(fields, group):
    owner = fields.number(1, within(FREE, OF))
    fields.number(4, within(1, group["threads given"]) if owner == OF else is_zero)
    if owner != FREE:
        fields.bytes(PAGE)
    return owner


def read_header(fields):
    if fields.bytes(4) != b"DPGS":
        raise Refused("magic")
    version = fields.number(2)
    if version != 1:
        raise Refused(f"version {version}")
    group = {"digest": fields.bytes(32), "used": fields.number(4)}
    group["quantum"] = fields.number(4, within(16, 65536))
    limit = fields.number(4, within(1, 1000000))
    group["frames given"] = fields.number(4, within(16, 16384))
    group["rounds"] = fields.number(4, within(0, limit))
    group["threads given"] = fields.number(4, within(1, 65535))
    group["processes given"] = fields.number(4, within(1, 65535))
    return group


def read_group(text):
    fields = Fields(text)
    group = read_header(fields)
    group["processes"] = [
        read_process(fields, group) for _ in range(group["processes given"])
    ]
    group["threads"] = []
    last = 0
    for _ in range(fields.number(1, within(0, 64))):
        thread = read_thread(fields, group, last)
        last = thread["number"]
        group["threads"].append(thread)
    group["pipes"] = []
    for _ in range(64):
        group["pipes"].append(fields.bytes(fields.number(2, within(0, 4096))))
    group["waiters"] = []
    for _ in range(fields.number(1)):
        thread = fields.number(4, within(1, group["threads given"]))
        frame = fields.number(4, within(0, group["frames given"] - 1))
        fields.number(2, lambda n: n % 4 == 0 and n < 4096)
        group["waiters"].append(thread)
    group["frames"] = [read_frame(fields, group) for _ in range(group["frames given"])]
    if fields.place < len(text):
        raise Refused(f"after end at {fields.place}")
    if not is_lawful(group):
        raise Refused("unlawful")
    return group


def frames_are_lawful(group, living):
    uses = {}
    for process in living.values():
        frames = [frame for _, frame, _, _ in process["pages"]]
        if len(set(frames)) != len(frames):
            return False
        for frame in frames:
            uses[frame] = uses.get(frame, 0) + 1
    for process in living.values():
        for _, frame, _, shared in process["pages"]:
            if not shared and uses[frame] != 1:
                return False
    return all((o == FREE) == (f not in uses) for f, o in enumerate(group["frames"]))


def is_lawful(group):
    numbered = dict(enumerate(group["processes"], 1))
    living = {n: it for n, it in numbered.items() if it["kind"] == LIVE}
    homes = {it["process"] for it in group["threads"]}
    asleep = [it["number"] for it in group["threads"] if it["state"] == ASLEEP]
    ends = [end for it in living.values() for end in it["ends"]]
    open_pipes = {pipe for kind, pipe in ends if kind in (4, 5)}
    return (
        len(living) <= 32
        and group["processes given"] <= group["threads given"]
        and all(it["parent"] < n for n, it in numbered.items())
        and homes == set(living)
        and sorted(group["waiters"]) == asleep
        and all(p in open_pipes for p, bytes in enumerate(group["pipes"]) if bytes)
        and frames_are_lawful(group, living)
    )


def wanted(text, digest, exchanges):
    """The line of status 11 that is due, or None where the group is gone on with."""
    if len(text) > LIMIT:
        return "dos: group too long\n"
    try:
        group = read_group(text)
    except Refused as why:
        return f"dos: group refused: {why}\n"
    if group["digest"] != digest or group["used"] >= exchanges:
        return "dos: group is of another log\n"
    return None


def exchanges_of(log):
    """How many exchanges a log has, its end among them."""
    images = struct.unpack_from("<H", log, 6)[0]
    place, count = 20 + 32 * images, 0
    while log[place]:
        kind = log[place]
        if kind == 1:
            place += 6 + 5 * log[place + 5]
        elif kind == 2:
            place += 13 + struct.unpack_from("<H", log, place + 11)[0]
        elif kind == 3:
            place += 17
        else:
            count += struct.unpack_from("<I", log, place + 5)[0] - 1
            place += 9
        count += 1
    return count + 1


def contents(name):
    with open(name, "rb") as file:
        return file.read()


def read(name, log, rounds):
    log = contents(log)
    text = contents(name)
    why = wanted(text, hashlib.sha256(log).digest(), exchanges_of(log))
    if why is None and read_group(text)["rounds"] != int(rounds):
        why = f"saved after other rounds than {rounds}\n"
    sys.stderr.write(why or "")
    return 1 if why else 0


def variants(text):
    """Texts that differ from this one, each with what was done."""
    lengths = set(range(min(FIRST, len(text)))) | set(range(FIRST, len(text), STEP))
    for length in sorted(lengths | {len(text) - 1}):
        yield f"cut to {length}", text[:length]
    for place in range(min(FIRST, len(text))):
        for value in {0, 255, (text[place] + 1) % 256} - {text[place]}:
            changed = text[:place] + bytes([value]) + text[place + 1 :]
            yield f"byte {place} changed to {value}", changed
    yield "a byte behind", text + b"\0"


def is_as_wanted(ended, line):
    if line is not None:
        return (ended.returncode, ended.stdout, ended.stderr) == (11, b"", line.encode())
    # What the changed group comes to is its own; its log has no more rounds than it had.
    return ended.returncode in (0, 4, 7, 8)


def vary(dos, log, group):
    text, kept = contents(group), contents(log)
    digest, exchanges = hashlib.sha256(kept).digest(), exchanges_of(kept)
    tried = refused = wrong = 0
    with tempfile.NamedTemporaryFile() as file:
        for done, changed in variants(text):
            file.seek(0)
            file.truncate()
            file.write(changed)
            file.flush()
            line = wanted(changed, digest, exchanges)
            words = [dos, "resume", "--log", log, "--from", file.name, "--workers", "2"]
            ended = subprocess.run(words, stdin=subprocess.DEVNULL, capture_output=True)
            tried += 1
            refused += line is not None
            if not is_as_wanted(ended, line):
                wrong += 1
                end = ended.returncode, ended.stdout[-200:], ended.stderr[-200:]
                print(f"{done} gave {end}, wanted {line or 'a run'}", file=sys.stderr)
            if file.name and contents(file.name) != changed:
                wrong += 1
                print(f"{done}: the file was changed", file=sys.stderr)
    print(f"{tried} texts, of which {refused} are refused, {wrong} wrong")
    return 1 if wrong else 0


if __name__ == "__main__":
    words = sys.argv[1:]
    if len(words) != 4 or words[0] not in ("read", "vary"):
        sys.exit(__doc__)
    sys.exit((read if words[0] == "read" else vary)(*words[1:]))
