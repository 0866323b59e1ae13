"""Outside the proof. Runs a function in a process of its own, beside this one."""
import os
import pickle
import signal

from errors import BadInput, Failed


class Apart:
    """A function that runs in a copy of this process until `result`, or the end of the block. Its errors are raised by `result`."""

    def __init__(self, function):
        reader, writer = os.pipe()
        self.pid = os.fork()
        if self.pid == 0:
            os.close(reader)
            self._run(function, writer)
        os.close(writer)
        self.pipe = os.fdopen(reader, "rb")

    @staticmethod
    def _run(function, writer):
        """Writes what the function returns or raises, and ends the process."""
        status = 1
        try:
            try:
                answer = True, function()
            except (BadInput, Failed, MemoryError) as error:
                answer = False, error
            with os.fdopen(writer, "wb") as pipe:
                pickle.dump(answer, pipe, pickle.HIGHEST_PROTOCOL)
            status = 0
        except KeyboardInterrupt:
            pass  # the other process says so
        finally:
            # Output of this process must not be written twice.
            os._exit(status)

    def __enter__(self):
        return self

    def __exit__(self, *_):
        self.pipe.close()
        if self.pid:
            os.kill(self.pid, signal.SIGTERM)
            os.waitpid(self.pid, 0)

    def result(self):
        """Waits for the function, and returns what it returned."""
        try:
            is_good, value = pickle.load(self.pipe)
        except (EOFError, pickle.UnpicklingError):
            raise Failed("a replay ended before it was complete") from None
        finally:
            _, self.pid = os.waitpid(self.pid, 0), 0
        if not is_good:
            raise value
        return value
