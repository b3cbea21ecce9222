"""The built programs, and how scripts and tests run them, also many times. It needs Linux."""

import os
import resource
import select
import shutil
import signal
import subprocess
import tempfile
from dataclasses import dataclass
from functools import partial
from pathlib import Path

TOP = Path(__file__).resolve().parents[2]


def built(name):
    """Returns the path of a program: that of its variable, such as GIT_DIRTY, or that of this checkout. None without one."""
    path = os.path.abspath(os.environ.get(name.upper()) or TOP / "crates" / name / "out" / name)
    return path if os.access(path, os.X_OK) and os.path.isfile(path) else None


STATUS_PROGRAM, GIT_DIRTY = built("status_program"), built("git_dirty")


@dataclass(frozen=True)
class Ended:
    """How a run ended: its exit status, a signal's number below 0, or None if it hung and was ended."""

    status: "int | None"
    out: bytes
    fault: bytes

    def end(self):
        """Returns the status in words."""
        if self.status is None:
            return "it hangs"
        return f"signal {-self.status}" if self.status < 0 else f"exit status {self.status}"

    def text(self):
        """Returns the status, the output and the error output in one line."""
        return f"{self.end()}, output {self.out[:2000]!r}, error {self.fault[:2000]!r}"


class Runner:
    """Runs one program, with its output in files that are made once. They are closed at the end of a with block."""

    def __init__(self, program, seconds=5.0):
        self.program, self.seconds = os.path.abspath(program), seconds
        self.files = [tempfile.TemporaryFile() for _ in range(2)]
        self.nothing = os.open(os.devnull, os.O_RDONLY)

    def __enter__(self):
        return self

    def __exit__(self, *_):
        os.close(self.nothing)
        for file in self.files:
            file.close()

    def run(self, words, settings=None):
        """Runs the program with these arguments, and these settings as its whole environment."""
        actions = [(os.POSIX_SPAWN_DUP2, self.nothing, 0)]
        for number, file in enumerate(self.files, 1):
            empty(file.fileno())
            actions.append((os.POSIX_SPAWN_DUP2, file.fileno(), number))
        child = os.posix_spawn(self.program, [self.program, *words], settings or {}, file_actions=actions)
        return Ended(self.wait(child), *(content(file.fileno()) for file in self.files))

    def wait(self, child):
        """Returns the exit status. A child that runs for too long is ended, and has none."""
        ended = os.pidfd_open(child)
        try:
            in_time = select.select([ended], [], [], self.seconds)[0]
        finally:
            os.close(ended)
            if not os.waitid(os.P_PID, child, os.WEXITED | os.WNOHANG | os.WNOWAIT):
                os.kill(child, signal.SIGKILL)
            status = os.waitstatus_to_exitcode(os.waitpid(child, 0)[1])
        return status if in_time else None


class Starved:
    """Runs one program with the library of refuse_malloc.c, which refuses calls for memory and threads."""

    def __init__(self, program, room, seconds=10):
        self.runner, self.library = Runner(program, seconds), compile_library(room, Path(__file__).with_name("refuse_malloc.c"))
        self.report = tempfile.TemporaryFile()
        os.set_inheritable(self.report.fileno(), True)

    def __enter__(self):
        return self

    def __exit__(self, *_):
        self.runner.__exit__()
        self.report.close()

    def run(self, words, at=0, on=False, **settings):
        """Refuses this call, and with `on` all after it. Returns how the run ends, and a letter for each refused call. If no
        call is refused, `at` is 0, and the letters are those of all calls."""
        number = self.report.fileno()
        empty(number)
        settings |= {"LD_PRELOAD": self.library, "REFUSE_REPORT": str(number), "REFUSE_AT": str(at), "REFUSE_ON": str(int(on))}
        return self.runner.run(words, settings), content(number).decode()


def empty(file):
    os.lseek(file, 0, os.SEEK_SET)
    os.ftruncate(file, 0)


def content(file):
    return os.pread(file, os.fstat(file).st_size, 0)


def compile_library(folder, source):
    """Compiles a C file to a library that can be preloaded, and returns its path."""
    library = os.path.join(folder, f"{Path(source).stem}.so")
    subprocess.run([os.environ.get("CC") or "cc", "-O2", "-fPIC", "-shared", "-o", library, source], check=True)
    return library


def limit_files(size):
    """Returns a function that limits files which its process writes to so many bytes."""
    return partial(set_limit, size)


def set_limit(size):
    # The signal would end the process. If it is ignored, the write fails.
    signal.signal(signal.SIGXFSZ, signal.SIG_IGN)
    resource.setrlimit(resource.RLIMIT_FSIZE, (size, size))


def room_of_memory():
    """Returns a folder in memory with room for repositories, or None. On the disk they take longer."""
    folder = "/dev/shm"
    return folder if os.access(folder, os.W_OK | os.X_OK) and shutil.disk_usage(folder).free > 1 << 30 else None
