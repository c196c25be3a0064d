"""A checkout with stand-ins for the programs stem and renderer, and what tools/stem_test and tools/stem_ends_test look at in it."""
import inspect
import os
import shutil
import signal
import struct
import sys
import time

import checkout

# A record of 4,096 samples, and one of which the stand-in says that it has a NaN.
RECORD = b"\x02\x00\x00\x10" + bytes(60)
NAN = b"\xff\x00\x00\x10" + bytes(60)
OLD = b"what was there before"


def wav(rate, data):
    """The stem that has these bytes for samples."""
    header = b"RIFF", 36 + len(data), b"WAVE", b"fmt ", 16, 1, 1, rate, 2 * rate, 2, 16, b"data", len(data)
    return struct.pack("<4sI4s4sIHHIIHH4sI", *header) + data


def start(program):
    """Tells that it has started and who it is, where a test waits for that, and then takes its time."""
    if os.environ.get("WAITS") == program:
        with open(os.environ["STARTED"], "w", encoding="ascii") as file:
            file.write(str(os.getpid()))
        time.sleep(60)


def end(program, number, output):
    """Prints what it is to print, or says the number; or what the test wants to see."""
    more = os.environ if os.environ.get("ODD", program) == program else {}
    said = str(number) if number else more.get("SAID", "")
    os.write(1, (output + bytes(int(more.get("MORE", 0))))[: int(more.get("CUT", 1 << 30))])
    os.write(2, (said + "\n").encode() if said else b"")
    if "SIGNAL" in more:
        signal.signal(int(more["SIGNAL"]), signal.SIG_DFL)
        os.kill(os.getpid(), int(more["SIGNAL"]))


def stem():
    """Its samples are the bytes of the list."""
    rate, jobs = struct.unpack("<I", sys.stdin.buffer.read(4))[0], sys.stdin.buffer.read()
    start("stem")
    number = 8 if len(jobs) % 64 or len(jobs) > 65536 else 4 if not 1 <= rate <= 384000 or jobs[:1] == b"\xff" else 0
    end("stem", number, b"" if number else wav(rate, jobs))


def renderer():
    jobs = sys.stdin.buffer.read()
    start("renderer")
    wrong = len(jobs) % 64 or len(jobs) > 65536
    end("renderer", 0, b"8\n" if wrong else b"".join(b"%d 0 0 0 0 0 0 0\n" % k for k in range(len(jobs) // 64)))


def text_of(program):
    parts = [inspect.getsource(part) for part in (wav, start, end, program)]
    return "#!/usr/bin/env python3\nimport os, signal, struct, sys, time\n" + "".join(parts) + program.__name__ + "()\n"


class Script(checkout.Checkout):
    """With a list of one record, and a stem that was there before. No folder is there for what is made elsewhere."""

    script = "stem"
    reads = ["tools/program.sh", "tools/scratch.sh"]
    programs = {"stem": text_of(stem), "renderer": text_of(renderer)}

    def setUp(self):
        super().setUp()
        self.put("list", RECORD)
        self.put("old.wav", OLD)
        self.environment["TMPDIR"] = self.root + "/nowhere"
        self.before = set(os.listdir(self.root))

    def built(self):
        """Both programs, and no stem."""
        self.assertEqual(self.call("./stem -v list new.wav")[0], 0)
        self.remove("new.wav")
        self.before = set(os.listdir(self.root))

    def put(self, name, content):
        with open(os.path.join(self.root, name), "wb") as file:
            file.write(content)

    def got(self, name):
        with open(os.path.join(self.root, name), "rb") as file:
            return file.read()

    def remove(self, name):
        os.remove(os.path.join(self.root, name))

    def tool(self, name, text):
        """From here on this stands for a tool of the system, and for the last one that was asked for none; $TOOL is that of the system."""
        shutil.rmtree(self.kit + "/tool", ignore_errors=True)
        self.program(f"{self.kit}/tool/{name}", "#!/bin/sh\n" + text)
        self.environment["TOOL"] = shutil.which(name)
        self.environment["PATH"] = f"{self.kit}/tool:{self.kit}:{os.environ['PATH']}"

    def writes(self, command, name, content):
        self.assertEqual((self.call(command), self.got(name)), ((0, "", ""), content))

    def nothing_changed(self, *made):
        """The folder holds what it did, and what the test itself made; the old stem is as it was."""
        self.assertEqual(set(os.listdir(self.root)) - {"target"}, self.before - {"target"} | set(made))
        self.assertEqual(self.got("old.wav"), OLD)
