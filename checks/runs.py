"""What runs of a program cost: their processor time, and the memory that they allocate and hold."""
import os
import subprocess
import tempfile

from transcripts import TOP


def given(text):
    """A file of that text, or of those lines, to be read by runs; it is deleted when it is closed."""
    file = tempfile.TemporaryFile("w+")
    file.writelines([text] if isinstance(text, str) else text)
    return file


class Programs:
    """What runs of a program cost."""

    def __init__(self, program, folder):
        self.program, self.counts = os.path.realpath(program), f"{folder}/counts"
        counting = f"{folder}/refuse.so"
        cc = os.environ.get("CC", "cc")
        subprocess.run([cc, "-O1", "-shared", "-fPIC", "-o", counting, f"{TOP}/checks/refuse.c", "-ldl"], check=True)
        self.counting = dict(os.environ, LD_PRELOAD=counting, REFUSED_GROWTH="0", GROWTH_COUNT=self.counts)

    def run(self, words, file, env=None):
        """Runs it over a file, and returns the processor time that it took, in seconds."""
        file.seek(0)
        running = subprocess.Popen([self.program, *words.split()], stdin=file, stdout=subprocess.DEVNULL, env=env)
        _, status, used = os.wait4(running.pid, 0)
        running.returncode = os.waitstatus_to_exitcode(status)
        if running.returncode:
            raise SystemExit(f"{words} ended with {running.returncode}")
        return used.ru_utime + used.ru_stime

    def usage(self, words, text):
        """The processor time of a run over that text."""
        with given(text) as file:
            return self.run(words, file)

    def count(self, words, file):
        """How many allocations a run makes, the bytes of all, and the most bytes that it holds at once."""
        self.run(words, file, self.counting)
        with open(self.counts) as counts:
            return [int(count) for count in counts.read().split()]

    def counted(self, words, text):
        with given(text) as file:
            return self.count(words, file)
