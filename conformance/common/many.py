"""Runs a program under test on many inputs: conformance/common/many.c keeps it loaded, and each input has a process of its own."""
import os
import struct
import subprocess

from program import TOP


def built_shim(folder):
    """conformance/common/many.c, built into a folder."""
    shim = os.path.join(folder, "many.so")
    subprocess.run(["gcc", "-shared", "-fPIC", "-O2", "-o", shim, f"{TOP}/conformance/common/many.c", "-ldl"], check=True)
    return shim


class Many:
    """A program with its words. `ask` hands in an input and `told` tells what came of it, so that meanwhile the program and the
    asker work side by side."""

    def __init__(self, shim, program, words):
        asked, to = os.pipe()
        of, told = os.pipe()
        env = {**os.environ, "LD_PRELOAD": shim, "MANY": f"{asked} {told}"}
        self.process = subprocess.Popen([program, *words], env=env, pass_fds=[asked, told], stdin=subprocess.DEVNULL)
        os.close(asked)
        os.close(told)
        self.input, self.output = os.fdopen(to, "wb"), os.fdopen(of, "rb")

    def __enter__(self):
        return self

    def __exit__(self, *_):
        self.input.close()
        self.output.close()
        self.process.wait()

    def ask(self, data):
        self.input.write(struct.pack("<I", len(data)) + data)
        self.input.flush()

    def told(self):
        """The status, or less than 0 for the signal that ended it, and both outputs."""
        status, out, err = struct.unpack("<iII", self.output.read(12))
        return os.waitstatus_to_exitcode(status), self.output.read(out), self.output.read(err)
