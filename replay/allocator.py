"""Outside the proof. Talks to the proved program: `drf run` as a child process, `drf check` and `drf lint`."""
import json
import os
import subprocess

from errors import BadInput, Failed

OK = b'{"ok":true}\n'
# This many lines are sent before their replies are read. Short replies to them fit into a pipe.
UNREAD = 1000
# ./drf ends with this status if it has no program for this machine.
NO_PROGRAM = 4


def program():
    """Returns the path of the program: the repository's ./drf, which runs the one that the environment variable DRF names if there is one."""
    return os.path.join(os.path.dirname(os.path.dirname(os.path.realpath(__file__))), "drf")


def message_of(stderr):
    """Returns what a command wrote to standard error, on one line and without the name of the program."""
    return stderr.decode(errors="replace").strip().replace("\n", "; ").removeprefix("drf: ")


def run(words, source):
    """Runs a command with a file as standard input."""
    try:
        return subprocess.run([program(), *words], stdin=source, capture_output=True)
    except OSError as error:
        raise Failed(f"{program()}: {error.strerror}") from None


class Check:
    """A `drf check` of the journal of these pieces. It runs until `verdict`, or the end of the block."""

    def __init__(self, pieces, source, state):
        self.pieces, self.state = pieces, state
        try:
            self.child = subprocess.Popen([program(), "check", *(["--from", state] if state else [])], stdin=source, stdout=subprocess.PIPE, stderr=subprocess.PIPE)
        except OSError as error:
            raise Failed(f"{program()}: {error.strerror}") from None

    def __enter__(self):
        return self

    def __exit__(self, *_):
        self.child.kill()
        self.child.communicate()

    def verdict(self):
        """Returns the number of events. Raises BadInput at the first line that is not right."""
        stdout, stderr = self.child.communicate()
        status, verdict, said = self.child.returncode, stdout.decode().split(), message_of(stderr)
        if status == 0 and verdict[:1] == ["good"]:
            return int(verdict[1])
        if verdict[:2] == ["bad", "line"]:
            number, pieces = int(verdict[2]), self.pieces
            good = "the lines before its event" if pieces.paths else f"lines 1 to {number - 2}"
            raise BadInput(f"{pieces.place(number)}: the reply is missing, cut or wrong; {good} are a good journal, replay those"
                           if number > 2 else f"{pieces.place(2)}: the reply is missing, cut or wrong; is this a journal of `drf run --echo`"
                           + (" that continues the state?" if self.state else " from an empty cluster, or do you need --from STATE?"))
        if status == 3:
            raise BadInput(said)
        raise Failed(said or f"drf check ended with status {status}", NO_PROGRAM if status == NO_PROGRAM else 1)


def lint(source):
    """Returns the first finding of `drf lint`, such as `line 3 column 10: 32 BadShape: ..`, or None."""
    done = run(["lint"], source)
    if done.returncode not in (0, 3):
        raise Failed(message_of(done.stderr), NO_PROGRAM if done.returncode == NO_PROGRAM else 1)
    return done.stdout.decode(errors="replace").splitlines()[0] if done.returncode else None


class Allocator:
    """A `drf run`. Lines are sent in groups; `on_refusal` is called with the line and the reply for each one that is refused."""

    def __init__(self, state, on_refusal):
        self.on_refusal, self.lines = on_refusal, []
        words = [program(), "run", *(["--from", state] if state else [])]
        self.child = subprocess.Popen(words, stdin=subprocess.PIPE, stdout=subprocess.PIPE, stderr=subprocess.PIPE)

    def send(self, line):
        """Sends a line whose reply is expected to be {"ok":true}."""
        self.lines.append(line)
        if len(self.lines) == UNREAD:
            self._replies()

    def ask(self, line):
        """Sends a line and returns its reply, which may be a refusal."""
        self._replies()
        self.lines.append(line)
        return self._exchange()[0]

    def cycle(self, at):
        """Sends a cycle with the lines before it, and returns its offers."""
        self.lines.append(f'{{"event":"cycle","at":{at}}}')
        return json.loads(self._replies(True))["offers"]

    def _replies(self, is_cycle=False):
        lines = self.lines
        replies = self._exchange()
        last = replies.pop() if is_cycle else None
        for line, reply in zip(lines, replies):
            if reply != OK:
                self.on_refusal(line, json.loads(reply))
        return last

    def _exchange(self):
        lines, self.lines = self.lines, []
        if not lines:
            return []
        try:
            self.child.stdin.write(("\n".join(lines) + "\n").encode())
            self.child.stdin.flush()
        except OSError:
            self._ended()
        read = self.child.stdout.readline
        replies = [read() for _ in lines]
        if not replies[-1].endswith(b"\n"):
            self._ended()
        return replies

    def _ended(self):
        self.child.kill()
        said = self.child.stderr.read().decode(errors="replace").strip().removeprefix("drf: ")
        raise Failed(f"the allocator ended before the replay did: {said or 'no message'}")

    def close(self):
        """Reads the replies that are left, and ends the allocator."""
        self._replies()
        self.kill()

    def kill(self):
        """Ends the allocator."""
        self.child.kill()
        self.child.wait()
        for pipe in (self.child.stdin, self.child.stdout, self.child.stderr):
            try:
                pipe.close()
            except OSError:
                pass
