"""A stopped QEMU of the q35 board: ports, memory and configuration space by its qtest protocol, processors by QMP."""

import json
import os
import re
import select
import shutil
import socket
import subprocess
import tempfile
import time

LETTER = {1: "b", 2: "w", 4: "l", 8: "q"}
CONFIG_ADDRESS, CONFIG_DATA = 0xCF8, 0xCFC
# device and function as they stand in a configuration address: memory controller 0:0.0, south bridge 0:1f.0
CONTROLLER, SOUTH_BRIDGE = 0, 0x1F << 11
PMBASE, ACPI_CNTL = 0x40, 0x44
FW_CFG_SELECTOR, FW_CFG_DATA, DIRECTORY = 0x510, 0x511, 0x19
# which bit of the platform's features is which property of the board
FEATURES = ("x-smi-broadcast", "x-smi-cpu-hotplug", "x-smi-cpu-hotunplug")
# so long QEMU may outlive who started it and was killed
GRACE = 30


class Ended(Exception):
    """QEMU didn't start, or ended by itself."""


class Late(Exception):
    """QEMU gave no answer in time."""


def version(program):
    """Its version as it prints it, None where it isn't installed or doesn't say."""
    try:
        done = subprocess.run([program, "--version"], capture_output=True, text=True, check=False, timeout=20)
    except (OSError, subprocess.TimeoutExpired):
        return None
    found = re.match(r"QEMU emulator version (.+)", done.stdout)
    return found[1].strip() if found else None


def command_line(program, machine, words, socket_name):
    """The words that start it stopped. Debian removes the accelerator that is named qtest; TCG serves, since nothing runs."""
    topology = machine.topology or f"sockets={machine.count},cores=1,threads=1"
    line = [program, "-machine", "q35,smm=on", "-accel", "tcg", "-S", "-nodefaults", "-display", "none"]
    line += ["-m", f"{machine.low >> 20}M", "-smp", f"cpus={machine.boot},maxcpus={machine.count},{topology}"]
    for bit, name in enumerate(FEATURES):
        line += ["-global", f"ICH9-LPC.{name}={'on' if machine.features >> bit & 1 else 'off'}"]
    line += ["-global", f"mch.smbase-smram={'on' if machine.smram else 'off'}"]
    for word in machine.globals:
        line += ["-global", word]
    line += ["-qtest", "stdio", "-qtest-log", "none", "-qmp", f"unix:{socket_name},server=on,wait=off"]
    return line + words


class Qemu:
    """One such process, until `close`. Each wait ends at the limit, in seconds from the start on."""

    def __init__(self, program, machine, limit, words=()):
        self.folder = tempfile.mkdtemp(prefix="conformance-")
        self.end = time.monotonic() + limit
        self.answers, self.messages, self.slots = b"", b"", None
        name = os.path.join(self.folder, "qmp")
        line = command_line(program, machine, list(words), name)
        if shutil.which("timeout"):
            line = ["timeout", "-k", "5", str(int(limit) + GRACE), *line]
        self.errors = open(os.path.join(self.folder, "errors"), "w+b")
        self.process = subprocess.Popen(line, stdin=subprocess.PIPE, stdout=subprocess.PIPE, stderr=self.errors)
        self.channel = socket.socket(socket.AF_UNIX)
        try:
            self.connect(name)
        except (Ended, Late):
            self.close()
            raise

    def __enter__(self):
        return self

    def __exit__(self, *_):
        self.close()

    def connect(self, name):
        """Opens the QMP channel as soon as it is there."""
        while True:
            try:
                self.channel.connect(name)
                break
            except OSError:
                if self.process.poll() is not None:
                    raise Ended(self.reason()) from None
                if time.monotonic() > self.end:
                    raise Late("QEMU opened no channel within the time limit") from None
                time.sleep(0.02)
        self.message()
        self.command("qmp_capabilities")

    def reason(self):
        """Why it has ended, in its own words."""
        self.errors.seek(0)
        text = self.errors.read().decode(errors="replace").strip()
        return f"QEMU ended, status {self.process.poll()}: {text}"

    def wait_for(self, source):
        """Returns once there is something to read."""
        left = self.end - time.monotonic()
        if left <= 0 or not select.select([source], [], [], left)[0]:
            raise Late("QEMU gave no answer within the time limit")

    def ask(self, line):
        """One line of the qtest protocol, and the number that it is answered; 0 where there is none."""
        try:
            self.process.stdin.write(line.encode() + b"\n")
            self.process.stdin.flush()
        except OSError:
            raise Ended(self.reason()) from None
        words = self.answer()
        while not words or words[0] == "IRQ":
            words = self.answer()
        if words[0] != "OK":
            raise Ended(f"{line} is answered {' '.join(words)}")
        return int(words[1], 16) if len(words) > 1 else 0

    def answer(self):
        """The words of the next line on standard output."""
        while b"\n" not in self.answers:
            self.wait_for(self.process.stdout)
            piece = os.read(self.process.stdout.fileno(), 65536)
            if not piece:
                self.wait_for_end()
                raise Ended(self.reason())
            self.answers += piece
        line, self.answers = self.answers.split(b"\n", 1)
        return line.decode(errors="replace").split()

    def message(self):
        """The next QMP message."""
        while b"\n" not in self.messages:
            self.wait_for(self.channel)
            try:
                piece = self.channel.recv(65536)
            except OSError:
                piece = b""
            if not piece:
                self.wait_for_end()
                raise Ended(self.reason())
            self.messages += piece
        line, self.messages = self.messages.split(b"\n", 1)
        return json.loads(line)

    def command(self, name, /, **arguments):
        """A QMP command and its answer; events before it are dropped."""
        text = json.dumps({"execute": name, **({"arguments": arguments} if arguments else {})})
        try:
            self.channel.sendall(text.encode() + b"\n")
        except OSError:
            raise Ended(self.reason()) from None
        while True:
            got = self.message()
            if "event" not in got:
                return got

    def read(self, port, width):
        """What a port reads."""
        return self.ask(f"in{LETTER[width]} {port:#x}")

    def write(self, port, width, value):
        """Writes a port."""
        self.ask(f"out{LETTER[width]} {port:#x} {value:#x}")

    def load(self, address, width):
        """What memory has, seen from outside SMM."""
        return self.ask(f"read{LETTER[width]} {address:#x}")

    def store(self, address, width, value):
        """Writes memory, from outside SMM."""
        self.ask(f"write{LETTER[width]} {address:#x} {value:#x}")

    def configuration(self, device, register, width, value=None):
        """Reads a register of configuration space, or writes it where there is a value."""
        self.write(CONFIG_ADDRESS, 4, 1 << 31 | device | register & 0xFC)
        port = CONFIG_DATA + (register & 3)
        return self.read(port, width) if value is None else self.write(port, width, value)

    def place_power_block(self):
        """Puts the ports of ICH9's power management at 0600, as firmware does."""
        self.configuration(SOUTH_BRIDGE, PMBASE, 4, 0x601)
        self.configuration(SOUTH_BRIDGE, ACPI_CNTL, 1, 0x80)

    def files(self):
        """The keys of fw_cfg's files by name. Key 0 is selected after that, as it is at the start."""
        self.write(FW_CFG_SELECTOR, 2, DIRECTORY)
        count = int.from_bytes(self.bytes_of_item(4), "big")
        entries = [self.bytes_of_item(64) for _ in range(count)]
        self.write(FW_CFG_SELECTOR, 2, 0)
        return {entry[8:].rstrip(b"\0").decode(): int.from_bytes(entry[4:6], "big") for entry in entries}

    def bytes_of_item(self, count):
        """The next bytes of the selected item."""
        return bytes(self.read(FW_CFG_DATA, 1) for _ in range(count))

    def possible(self):
        """The possible processors by place."""
        found = self.command("query-hotpluggable-cpus")["return"]
        order = ("socket-id", "die-id", "core-id", "thread-id")
        return sorted(found, key=lambda slot: [slot["props"].get(name, 0) for name in order])

    def insert(self, place):
        """Inserts a processor; its refusal where QEMU refuses."""
        slot = self.possible()[place]
        got = self.command("device_add", driver=slot["type"], id=f"cpu{place}", **slot["props"])
        return got["error"]["desc"] if "error" in got else None

    def remove(self, place):
        """Requests the removal of a processor; the refusal where there is one."""
        path = self.possible()[place].get("qom-path")
        if path is None:
            return "there is no such processor"
        got = self.command("device_del", id=path)
        return got["error"]["desc"] if "error" in got else None

    def wait_for_end(self):
        """Its output is closed: it is about to end."""
        try:
            self.process.wait(5)
        except subprocess.TimeoutExpired:
            self.process.kill()

    def close(self):
        """Ends it."""
        if self.process.poll() is None:
            self.process.terminate()
            try:
                self.process.wait(5)
            except subprocess.TimeoutExpired:
                self.process.kill()
                self.process.wait(5)
        self.channel.close()
        for stream in (self.process.stdin, self.process.stdout):
            try:
                stream.close()
            except OSError:
                pass
        self.errors.close()
        shutil.rmtree(self.folder, ignore_errors=True)
