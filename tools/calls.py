"""Calls of a program by the thousand, one at a time: what each prints goes into two files that are used again."""
import collections
import os
import signal

PATIENCE = 60
Ended = collections.namedtuple("Ended", "status out err")


def give_up(*_):
    raise TimeoutError(f"a call took more than {PATIENCE} seconds")


class Calls:
    def __init__(self, program, folder):
        self.program, self.count = os.path.abspath(program), 0
        self.files = [os.open(os.path.join(folder, name), os.O_RDWR | os.O_CREAT | os.O_APPEND, 0o600) for name in ("printed", "errors")]
        signal.signal(signal.SIGALRM, give_up)

    def run(self, *words):
        """How the program ends with these words and no standard input, with what it prints and what it says on standard error."""
        for file in self.files:
            os.ftruncate(file, 0)
        actions = [(os.POSIX_SPAWN_OPEN, 0, os.devnull, os.O_RDONLY, 0), *((os.POSIX_SPAWN_DUP2, file, at) for at, file in enumerate(self.files, 1))]
        signal.alarm(PATIENCE)
        child = os.posix_spawn(self.program, [self.program, *words], os.environ, file_actions=actions)
        try:
            status = os.waitstatus_to_exitcode(os.waitpid(child, 0)[1])
        except TimeoutError:
            os.kill(child, signal.SIGKILL)
            os.waitpid(child, 0)
            raise
        finally:
            signal.alarm(0)
        self.count += 1
        return Ended(status, *(os.pread(file, os.fstat(file).st_size, 0).decode() for file in self.files))
