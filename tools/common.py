"""What the tools share: errors, runs of mbx, the text of an outcome, typed rows, S-records and symbols."""
import argparse
import bisect
import contextlib
import os
import re
import struct
import subprocess
import sys

TOP = os.path.dirname(os.path.dirname(os.path.realpath(__file__)))
LAST_STEP = 4_294_967_295
BLOCK_BYTES = 512
MOST_BLOCKS = 32_768

REGISTERS = (
    [f"D{n}" for n in range(8)] + [f"A{n}" for n in range(7)]
    + "USP ISP MSP PC SR VBR SFC DFC CACR TC ITT0 ITT1 DTT0 DTT1 MMUSR URP SRP".split()
    + "CTRL STATUS PERIOD COUNT PENDING".split())


class Refused(Exception):
    """The input is bad; the text says why."""


def run_tool(main):
    """Runs a tool to its status: what it answers, or 2 with a line on standard error where it refuses its input."""
    name = os.path.basename(sys.argv[0])
    try:
        status = main() or 0
        sys.stdout.flush()
    except Refused as why:
        print(f"{name}: {why}", file=sys.stderr)
        status = 2
    except BrokenPipeError:
        # Nobody reads on; what is left in the buffer goes nowhere.
        os.dup2(os.open(os.devnull, os.O_WRONLY), sys.stdout.fileno())
        status = 1
    except OSError as why:
        print(f"{name}: {why.filename or 'a stream'}: {why.strerror}", file=sys.stderr)
        status = 2
    except KeyboardInterrupt:
        status = 130
    sys.exit(status)


def parser_of(about):
    """A parser of words whose help is a tool's own text."""
    return argparse.ArgumentParser(description=about, formatter_class=argparse.RawDescriptionHelpFormatter)


def number_from(least, most=LAST_STEP):
    """A type of argument: a decimal number in a range."""
    def read(word):
        if not re.fullmatch("[0-9]+", word) or not least <= int(word) <= most:
            raise argparse.ArgumentTypeError(f"'{word}' is no number from {least} to {most}")
        return int(word)
    return read


def read_file(name):
    """The bytes of a file; `-` is standard input."""
    if name == "-":
        return sys.stdin.buffer.read()
    with open(name, "rb") as file:
        return file.read()


# ---- runs of mbx

def add_machine(parser, required=True):
    """The words that say which machine `mbx bare` is to run, but for its steps and its script."""
    parser.add_argument("--mbx", metavar="PROGRAM", default=os.path.join(TOP, "mbx"),
                        help="the program to run, such as tools/unproved; ./mbx of the repository by default")
    parser.add_argument("image", metavar="IMAGE", nargs=None if required else "?", help="a file of S-records")
    parser.add_argument("--ram", metavar="KIB", type=number_from(64, 16_384), required=required,
                        help="the machine's RAM")
    parser.add_argument("--disk", metavar="BLOCKS", type=number_from(1, MOST_BLOCKS), help="a disk of so many blocks")
    parser.add_argument("--contents", metavar="FILE", help="what the disk holds, as S-records")


class Program:
    """A program that is run once or more often."""

    def __init__(self, name):
        self.program = name
        self.was_run = False

    def run_words(self, words, waiting=None):
        """What a command prints. `waiting` is called with the seconds that a long run takes."""
        # What a program says at each run is said once, and at once, since the first run may build the program.
        with start([self.program, *words], stderr=subprocess.PIPE if self.was_run else None) as child:
            seconds = 0
            while True:
                try:
                    text, said = child.communicate(timeout=1)
                    break
                except subprocess.TimeoutExpired:
                    seconds += 1
                    if waiting:
                        waiting(seconds)
                except BaseException:
                    child.kill()
                    raise
        self.was_run = True
        if child.returncode:
            why = f": {text_of(said)}" if said else ""
            raise Refused(f"{self.program} ended with status {child.returncode}{why}")
        return text


class Machine(Program):
    """A machine that is run from its start, once or more often."""
    steps_taken = 0

    def __init__(self, arguments):
        super().__init__(arguments.mbx)
        self.image = arguments.image
        self.ram = arguments.ram
        self.blocks = arguments.disk
        self.contents = arguments.contents

    def run(self, steps, script=None, waiting=None):
        """The text of the outcome after so many steps."""
        words = ["bare", self.image, "--ram", str(self.ram), "--steps", str(steps)]
        for name, value in ("disk", self.blocks), ("contents", self.contents), ("script", script):
            if value is not None:
                words += [f"--{name}", str(value)]
        return self.run_words(words, waiting)


def text_of(said):
    """What a program said, as text."""
    return said.decode(errors="replace").strip()


def start(words, stderr=subprocess.PIPE):
    """Starts a program whose output is read."""
    try:
        return subprocess.Popen(words, stdin=subprocess.DEVNULL, stdout=subprocess.PIPE, stderr=stderr)
    except OSError as why:
        raise Refused(f"{words[0]} cannot be run: {why.strerror}") from None


# ---- the text of an outcome

class Memory:
    """The rows of an outcome's memory or of a disk's blocks: 16 bytes each, where they are not all zero."""
    WIDTH = len("00000000 ") + 32 + len("\n")

    def __init__(self, text):
        self.text = text

    def __len__(self):
        return len(self.text) // self.WIDTH

    def address(self, place):
        """The address of a row, by its place among the rows."""
        return int(self.text[place * self.WIDTH:][:8], 16)

    def row(self, place):
        """The 16 bytes of a row."""
        return bytes.fromhex(self.text[place * self.WIDTH + 9:][:32].decode())

    def rows(self):
        """Each row's address and bytes."""
        for place in range(len(self)):
            yield self.address(place), self.row(place)

    def at(self, address):
        """The 16 bytes of the row of an address."""
        address &= ~15
        low, high = 0, len(self)
        while low < high:
            middle = (low + high) // 2
            if self.address(middle) < address:
                low = middle + 1
            else:
                high = middle
        return self.row(low) if low < len(self) and self.address(low) == address else bytes(16)

    def number(self, address, size):
        """A number of one, two or four bytes that does not leave its row."""
        return int.from_bytes(self.at(address)[address % 16:][:size], "big")


class Disk:
    """A disk as an outcome shows it."""

    def __init__(self, blocks, registers, buffer, memory):
        self.blocks = blocks
        self.registers = registers
        self.buffer = buffer
        self.memory = memory

    def contents(self):
        """All its bytes."""
        made = bytearray(self.blocks * BLOCK_BYTES)
        for address, row in self.memory.rows():
            if address + 16 > len(made):
                raise Refused(f"the disk has {self.blocks} blocks, and a row at {address:08X}")
            made[address:address + 16] = row
        return bytes(made)


class Guest:
    """A guest as an outcome shows it."""

    def __init__(self, number, state, steps, console, lost, queue, registers, memory, disk):
        self.number = number
        self.state = state
        self.steps = steps
        self.console = console
        self.lost = lost
        self.queue = queue
        self.registers = registers
        self.memory = memory
        self.disk = disk

    def register(self, name):
        """The value of a register."""
        return int(self.registers[name], 16)


class Lines:
    """The lines of an outcome or of a snapshot, read one after the other."""

    def __init__(self, text, name, kind="outcome"):
        self.text = text
        self.name = name
        self.kind = kind
        self.place = 0

    def refuse(self):
        line = self.text.count(b"\n", 0, self.place) + 1
        raise Refused(f"{self.name} line {line}: this is no {self.kind} as mbx prints it")

    def is_over(self):
        return self.place == len(self.text)

    def begins(self, word):
        return self.text.startswith(word.encode(), self.place)

    def match(self, pattern):
        """What a pattern of ASCII finds in the next line, which has to be as it says."""
        end = self.text.find(b"\n", self.place)
        line = self.text[self.place:end] if end >= 0 else self.text[self.place:]
        found = re.fullmatch(pattern, line.decode(errors="replace"))
        if end < 0 or not found:
            self.refuse()
        self.place = end + 1
        return found

    def word(self, name, pattern):
        """The word behind a name."""
        return self.match(f"{name} ({pattern})")[1]

    def dump(self, size):
        """So many bytes, in rows of 32."""
        made = b""
        while len(made) < size:
            digits = 2 * min(32, size - len(made))
            made += bytes.fromhex(self.match(f"[0-9A-F]{{{digits}}}")[0])
        return made

    def memory(self):
        """The rows up to `end`."""
        end = self.place
        if not self.begins("end\n"):
            end = self.text.find(b"\nend\n", self.place) + 1
        if (end - self.place) % Memory.WIDTH or end < self.place:
            self.refuse()
        rows = self.text[self.place:end]
        count = len(rows) // Memory.WIDTH
        marks = rows[len("00000000")::Memory.WIDTH] + rows[Memory.WIDTH - 1::Memory.WIDTH]
        if rows.translate(None, b"0123456789ABCDEF") != b" \n" * count or marks != b" " * count + b"\n" * count:
            self.refuse()
        self.place = end + len(b"end\n")
        return Memory(rows)


def read_disk(lines, number):
    """The disk of a guest, where one is shown."""
    if not lines.begins("disk "):
        return None
    blocks = int(lines.word(f"disk {number} blocks", "[0-9]{1,5}"))
    registers = {name: lines.word(name, "[0-9A-F]{8}") for name in ("BLOCK", "RESULT", "POSITION")}
    return Disk(blocks, registers, lines.dump(BLOCK_BYTES), lines.memory())


def read_guest(lines):
    number = int(lines.word("guest", "[0-9]{1,2}"))
    state = lines.word("state", "[a-z]+")
    steps = int(lines.word("steps", "[0-9]{1,10}"))
    console = lines.dump(int(lines.word("console", "[0-9]{1,5}")))
    lost = int(lines.word("lost", "[0-9]{1,20}"))
    queue = lines.dump(int(lines.word("queue", "[0-9]{1,2}")))
    registers = {name: lines.word(name, "[0-9A-F]{8}") for name in REGISTERS}
    memory = lines.memory()
    return Guest(number, state, steps, console, lost, queue, registers, memory, read_disk(lines, number))


def read_outcomes(text, name):
    """The guests of an outcome, by their numbers."""
    lines = Lines(text, name)
    if lines.is_over():
        raise Refused(f"{name} is empty, and no outcome")
    guests = {}
    while not lines.is_over():
        guest = read_guest(lines)
        guests[guest.number] = guest
    return guests


def chosen(guests, number):
    """The guest of a number, all of them where none is named."""
    if number is None:
        return list(guests.values())
    if number not in guests:
        raise Refused(f"there is no guest {number}")
    return [guests[number]]


# ---- snapshots

class Input:
    """What is to come by a script: bytes, and aborts as None, each with its step."""

    def __init__(self, entries=()):
        self.entries = list(entries)

    @classmethod
    def read(cls, lines):
        """The lines of a snapshot behind `input N`, or of a script that was made here."""
        made = []
        for line in lines:
            found = re.fullmatch("at ([0-9]{1,10}) (?:abort|hex ((?:[0-9A-F]{2})+))", line.rstrip("\n"))
            if not found:
                raise Refused(f"'{line.strip()}' is no line of input")
            made += [(int(found[1]), byte) for byte in bytes.fromhex(found[2])] if found[2] else [(int(found[1]), None)]
        return cls(made)

    def joined(self, other):
        """This and another one in order of steps; of one step this comes first."""
        return Input(sorted(self.entries + other.entries, key=lambda entry: entry[0]))

    def text(self):
        """Its lines in a snapshot, with their count: a line for each abort and for each run of bytes of one step."""
        rows = []
        for step, byte in self.entries:
            if byte is None:
                rows.append((step, None))
            elif rows and rows[-1][0] == step and rows[-1][1] is not None:
                rows[-1][1].append(byte)
            else:
                rows.append((step, [byte]))
        lines = [f"at {step} " + ("abort" if row is None else f"hex {bytes(row).hex().upper()}") for step, row in rows]
        return "".join(f"{line}\n" for line in [f"input {len(lines)}", *lines]).encode()


class Saved:
    """A guest of a snapshot: its outcome, what is to come by its script, and where that stands in the text."""

    def __init__(self, guest, script, start, end):
        self.guest = guest
        self.script = script
        self.start = start
        self.end = end


def read_saved(lines):
    lines.word("ram", "[0-9]{2,5}")
    for _ in range(int(lines.word("kept", "[0-9]{1,3}"))):
        lines.match("[SU] [0-9A-F]{5} [0-9A-F]{5} [0-9A-F]")
    start = lines.place
    count = int(lines.word("input", "[0-9]{1,10}"))
    script = Input.read([lines.match("at [0-9]{1,10} (?:abort|hex (?:[0-9A-F]{2})+)")[0] for _ in range(count)])
    end = lines.place
    return Saved(read_guest(lines), script, start, end)


class Snapshot:
    """A snapshot, whose guests can be typed to."""

    def __init__(self, text, name):
        lines = Lines(text, name, "snapshot")
        lines.match("snapshot 1")
        lines.word("board", "[0-9]{3,5}")
        lines.word("slice", "[0-9]{1,10}")
        self.text = text
        self.guests = {}
        for number in range(1, int(lines.word("guests", "[0-9]{1,2}")) + 1):
            saved = read_saved(lines)
            if saved.guest.number != number:
                lines.refuse()
            self.guests[number] = saved
        if not lines.is_over():
            lines.refuse()

    def guest(self, number):
        """The guest of a number; where none is named the only one."""
        if number is None and len(self.guests) > 1:
            raise Refused(f"there are {len(self.guests)} guests, and --guest says which one is meant")
        if number is not None and number not in self.guests:
            raise Refused(f"there is no guest {number}")
        return self.guests[number or 1]

    def typed(self, saved, script):
        """The text with more input of a guest, all of it at later steps than were taken."""
        early = [step for step, _ in script.entries if step <= saved.guest.steps]
        if early:
            raise Refused(f"step {early[0]} was taken before the snapshot, at step {saved.guest.steps}")
        return self.text[:saved.start] + saved.script.joined(script).text() + self.text[saved.end:]


# ---- rows that are typed

ROWS = """Of each row its characters and a LF are typed. Rows that begin with ^ are none of them:
  ^at STEP     what follows is typed from this step on
  ^wait STEPS  what follows is typed so many steps later
  ^abort       the abort key is pressed; ^C is the same
  ^^TEXT       the row ^TEXT is typed"""


class Typist:
    """Makes a script from rows, a byte each so many steps."""

    def __init__(self, first, apart):
        self.at = first
        self.apart = apart

    def line(self, what):
        """A line of the script, at the next step."""
        if self.at > LAST_STEP:
            raise Refused(f"step {self.at} is behind the last one, {LAST_STEP}")
        return f"at {self.at} {what}\n"

    def typed(self, text):
        """The lines that type some bytes."""
        for byte in text:
            yield self.line(f"hex {byte:02X}")
            self.at += self.apart

    def command(self, row):
        """The lines of a row that begins with ^."""
        found = re.fullmatch(rb"\^(at|wait) ([0-9]{1,10})", row)
        if row in (b"^abort", b"^C"):
            yield self.line("abort")
            self.at += self.apart
        elif row.startswith(b"^^"):
            yield from self.typed(row[1:] + b"\n")
        elif not found:
            raise Refused(f"'{row.decode(errors='replace')}' is none of ^at STEP, ^wait STEPS, ^abort, ^C and ^^TEXT")
        elif found[1] == b"wait":
            self.at += int(found[2])
        elif int(found[2]) < self.at:
            raise Refused(f"step {found[2].decode()} is before {self.at}, the next one at which a byte can be typed")
        else:
            self.at = int(found[2])

    def row(self, row):
        """The lines of the script for a row, which stands without its LF."""
        return self.command(row) if row.startswith(b"^") else self.typed(row + b"\n")


# ---- S-records

def record(kind, address, data=b""):
    """A record with an address of four bytes."""
    body = bytes([len(data) + 5]) + address.to_bytes(4, "big") + data
    return f"S{kind}{body.hex().upper()}{~sum(body) & 0xFF:02X}\n"


def records(address, data, unit=128):
    """The S3 records of some bytes; units that are all zero are left out."""
    zeros = bytes(unit)
    for at in range(0, len(data), unit):
        part = data[at:at + unit]
        if part != zeros[:len(part)]:
            yield record(3, address + at, part)


def last_record(start=0):
    """The record that ends an image."""
    return record(7, start)


# ---- symbols

class Names:
    """The symbols of a program, by their addresses."""

    def __init__(self, name):
        with contextlib.suppress(struct.error, IndexError, ValueError):
            self.symbols = sorted(symbols_of(read_file(name)))
            if self.symbols:
                self.starts = [start for start, _, _ in self.symbols]
                return
        raise Refused(f"{name} is no ELF file of 32 bits, big-endian, with symbols")

    def label(self, address):
        """The symbol of just this address, or None."""
        at = bisect.bisect_left(self.starts, address)
        return self.symbols[at][2] if at < len(self.starts) and self.starts[at] == address else None

    def place(self, address):
        """An address as a symbol and what lies between, or None outside the sections of the program."""
        at = bisect.bisect_right(self.starts, address) - 1
        if at < 0 or address >= self.symbols[at][1]:
            return None
        # The first of those that begin here.
        start = self.starts[at]
        name = self.symbols[bisect.bisect_left(self.starts, start)][2]
        return name if address == start else f"{name}+${address - start:X}"


def symbols_of(elf):
    """Address, end of its section, and name of each symbol that names a place in memory."""
    if elf[:6] != b"\x7fELF\x01\x02":
        raise IndexError
    table, = struct.unpack_from(">I", elf, 32)
    size, count = struct.unpack_from(">HH", elf, 46)
    # name, type, flags, address, offset, size, link, info, alignment, size of an entry
    sections = [struct.unpack_from(">10I", elf, table + size * n) for n in range(count)]
    for section in sections:
        if section[1] != 2:
            continue
        texts = sections[section[6]][4]
        for at in range(section[4], section[4] + section[5], 16):
            name, value, _, kind, _, index = struct.unpack_from(">IIIBBH", elf, at)
            # A place or a function or an object, in a section that stands in memory.
            if kind & 15 > 2 or not 0 < index < count or not sections[index][2] & 2:
                continue
            text = elf[texts + name:elf.index(b"\0", texts + name)].decode("latin-1")
            if text and not text.startswith("."):
                yield value, sections[index][3] + sections[index][5], text
