"""A checkout in which rt, the emulator and the programs are stand-ins, so that a script beside a program builds, waits and fails in no time: what
tools/render_test and tools/stem_test share."""
import os
import shutil
import subprocess
import tempfile
import unittest

ROOT = os.path.dirname(os.path.dirname(os.path.abspath(__file__)))

# Stands for the kit: `rt run`, in a program's folder, takes a moment and leaves the program, and `rt doc` leads to an emulator that runs it as it is.
RT = """#!/bin/sh
crate=$(basename "$PWD")
case $1 in
doc) echo "$(dirname "$0")/guide" ;;
lib) echo "library $crate: modules loaded=1 checked=0" ;;
run)
    echo "$crate" >>"$(dirname "$0")/asked"
    sleep "${SLOW:-0}"
    [ -z "${REFUSED:-}" ] || { echo "logic=not-proved functions=1"; exit 1; }
    mkdir -p out
    cp "$(dirname "$0")/$crate" out
    echo "fn $crate::main: proved"
    ;;
esac
"""
EMULATOR = '#!/bin/sh\nshift 3\nexec "$@"\n'


def run(command, **more):
    """A shell command's status, output and what it said, as text."""
    settings = {"input": b"", "capture_output": True, "timeout": 600, "check": False, **more}
    if "stdin" in settings:
        del settings["input"]
    done = subprocess.run(["sh", "-c", command], **settings)
    return done.returncode, done.stdout.decode(), done.stderr.decode()


class Checkout(unittest.TestCase):
    """The script and what it reads, as they are. Each program is a crate that leans on one other."""

    script = ""
    reads = ["tools/program.sh"]
    programs = {}

    def setUp(self):
        folder = tempfile.TemporaryDirectory()
        self.addCleanup(folder.cleanup)
        self.root = os.path.join(folder.name, "check out")
        self.kit = os.path.join(folder.name, "kit")
        for path in [self.root + "/tools", self.root + "/crates", self.kit]:
            os.makedirs(path)
        for path in [self.script, *self.reads]:
            shutil.copy(f"{ROOT}/{path}", f"{self.root}/{path}")
        self.write(self.root + "/crates.txt", "# two\nfloats:\n" + "".join(f"{name}: floats io\n" for name in self.programs))
        for name in ["floats/src/lib.rt", *(f"{name}/src/main.rt" for name in self.programs)]:
            self.write(f"{self.root}/crates/{name}", "")
        self.source = self.root + "/crates/floats/src/lib.rt"
        self.program(self.kit + "/rt", RT)
        for name, text in self.programs.items():
            self.program(f"{self.kit}/{name}", text)
        self.program(f"{self.kit}/on/{os.uname().machine}/toolchain/bin/qemu-x86_64", EMULATOR)
        self.environment = {**os.environ, "PATH": self.kit + ":" + os.environ["PATH"]}
        self.more = {}

    def write(self, path, text):
        os.makedirs(os.path.dirname(path), exist_ok=True)
        with open(path, "w", encoding="ascii") as file:
            file.write(text)

    def program(self, path, text):
        self.write(path, text)
        os.chmod(path, 0o755)

    def call(self, command, folder=None, **environment):
        return run(command, cwd=folder or self.root, env={**self.environment, **environment}, **self.more)

    def asked(self):
        """The programs that rt was asked for."""
        with open(self.kit + "/asked", encoding="ascii") as file:
            return file.read().split()

    def fails(self, done, message):
        self.assertEqual(done, (2, "", f"{self.script}: {message}\n"))
