"""What must come of `run`, `walk` and `migrate`, by readings of docs/FORMATS.md, docs/ABI.md and docs/RUNTIME.md and of the ISA that share nothing with the program's code.

    tools/second_reading.py run IMAGE [SCRIPT] < INPUT      tells it of files
    tools/second_reading.py walk IMAGE SNAPSHOT
    tools/second_reading.py migrate IMAGE > IMAGE           what must be written comes to the output
"""

import dataclasses
import sys

from image_reading import Broken, read_image, read_snapshot, snapshot_bytes
from migrating import migrated
from plain_client import BadScript, Client, read_script, write_walk
from plain_machine import Break, Machine

BAD_IMAGE, STOPPED, BAD_SNAPSHOT, BAD_SCRIPT, TORN = 4, 5, 13, 14, 15
USUAL_STEPS, USUAL_STACK = 1_000_000_000, 1_048_576


@dataclasses.dataclass
class Answer:
    """What must come of a call: the exit status, output and log, and the bytes of the file that is written: the snapshot of a run that the client stopped, or the image
    of version 2."""

    status: int
    output: bytes
    log: bytes
    saved: bytes | None = None


def bad_image(broken):
    return Answer(BAD_IMAGE, b"", b"bad image %d at %d\n" % (broken.rule, broken.offset))


def run_answer(content, script=b"", given=b"", steps=USUAL_STEPS, stack=USUAL_STACK):
    """What must come of `run` of an image of these bytes, with the script, the input, the count of instructions and the bytes of stack."""
    try:
        image = read_image(content)
    except Broken as broken:
        return bad_image(broken)
    try:
        client = Client(read_script(script))
    except BadScript as bad:
        return Answer(BAD_SCRIPT, b"", b"bad script %d line %d\n" % (bad.rule, bad.line))
    machine = Machine(image, stack, given, client)
    status, line = machine.run(steps)
    saved = snapshot_bytes(image, machine.snapshot()) if status == STOPPED else None
    return Answer(status, bytes(machine.output), bytes(machine.log) + line.encode() + b"\n", saved)


def walk_answer(content, snapshot):
    """What must come of `walk` of an image and a snapshot of these bytes."""
    try:
        image = read_image(content)
    except Broken as broken:
        return bad_image(broken)
    try:
        machine = Machine.of_snapshot(image, read_snapshot(image, snapshot))
    except Broken as broken:
        return Answer(BAD_SNAPSHOT, b"", b"bad snapshot %d at %d\n" % (broken.rule, broken.offset))
    lines = bytearray()
    try:
        write_walk(machine, lines)
    except Break as broken:
        return Answer(TORN, bytes(lines), b"torn %016x %016x\n" % (broken.frame, broken.address))
    return Answer(0, bytes(lines), b"")


def migrate_answer(content):
    """What must come of `migrate` of an image of these bytes."""
    try:
        return Answer(0, b"", b"", migrated(content))
    except Broken as broken:
        return bad_image(broken)


def main(command, *names):
    """Tells what must come of a call."""
    contents = []
    for name in names:
        with open(name, "rb") as file:
            contents.append(file.read())
    if command == "migrate":
        answer = migrate_answer(*contents)
        answer.output = answer.saved or b""
    else:
        answer = walk_answer(*contents) if command == "walk" else run_answer(*contents, given=sys.stdin.buffer.read())
    sys.stdout.buffer.write(answer.output)
    sys.stderr.buffer.write(answer.log)
    return answer.status


if __name__ == "__main__":
    sys.exit(main(*sys.argv[1:]) if len(sys.argv) > 2 else __doc__)
