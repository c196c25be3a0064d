"""How a tool in Python ends: what cannot be read, written, run or understood is one line on standard error and status 2, in plain words."""
import argparse
import os
import shutil
import sys

NAME = os.path.basename(sys.argv[0])


class Wrong(Exception):
    """What is wrong, in the words to print."""


class Arguments(argparse.ArgumentParser):
    """Python's own says what is wrong in two lines, and swallows a help that cannot be written: that is `run`'s."""

    def __init__(self):
        super().__init__(add_help=False)

    def error(self, message):
        raise Wrong(f"{message}; tools/{NAME} --help says what can be asked")


def need(*commands):
    """Ends where one of these is not there."""
    for command in commands:
        if not shutil.which(command):
            raise Wrong(f"{command} is not in PATH")


def told(error):
    """Only a stream has no file name, and only standard output is written by itself."""
    if error.filename is None:
        return f"cannot write standard output: {error.strerror}"
    return f"{os.fsdecode(error.filename)}: {error.strerror}"


def finish(status, message=None):
    """Without Python's own end, which would try once more to write what could not be written."""
    try:
        if message is not None:
            os.write(2, f"{NAME}: {message}\n".encode(errors="backslashreplace"))
    finally:
        os._exit(status)  # also where that cannot be told: there is nowhere else to tell it


def run(help_text, main):
    """Ends with the status that `main` gives, after all that it printed was written. What ends it before passes through `main`, which removes its copies."""
    try:
        if sys.stdout is None:
            raise Wrong("cannot write standard output: it is closed")
        if {"-h", "--help"} & set(sys.argv[1:]):
            print(help_text.strip())
            status = 0
        else:
            status = main()
        sys.stdout.flush()
        os.close(1)  # some file systems say only here that there was no room
    except Wrong as wrong:
        finish(2, wrong)
    except BrokenPipeError:
        finish(141)  # the reader of its output has enough
    except OSError as error:
        finish(2, told(error))
    except KeyboardInterrupt:
        finish(130)
    finish(status)
