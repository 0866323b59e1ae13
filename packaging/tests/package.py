# A package that a test builds and unpacks. Outside the proof.
import os
import subprocess

TOP = os.path.dirname(os.path.dirname(os.path.dirname(os.path.realpath(__file__))))
HERE = os.path.join(TOP, "packaging")
PROGRAMS = ("drf", "durzhanok-gateway", "durzhanok-agent")


class NotRun(Exception):
    """A test cannot run on this machine."""


def call(*words, status=0, text=True, **options):
    """Runs a command, and returns what it prints on standard output. Another status than the expected one is an error with all of its output."""
    done = subprocess.run(words, capture_output=True, text=text, check=False, **options)
    assert status is None or done.returncode == status, f"{' '.join(words)[:200]}: status {done.returncode}, not {status}\n{done.stdout}{done.stderr}"
    return done.stdout


def equal(what, got, want):
    assert got == want, f"{what}: {got!r}, not {want!r}"


def version():
    with open(os.path.join(TOP, "VERSION"), encoding="utf-8") as file:
        return file.read().strip()


class Package:
    """The package of this checkout: .file is the package, and .root a folder with what it would install."""

    def __init__(self, folder, top=TOP):
        self.folder, self.top, self.root = folder, top, os.path.join(folder, "root")
        self.file = os.path.join(folder, f"durzhanok_{version()}_amd64.deb")

    def build(self, called=None, **variables):
        """Builds the package, called by another version if one is given, and returns its file."""
        words = [os.path.join(self.top, "packaging", "deb")] + (["--as", called] if called else []) + [self.folder]
        call(*words, env={**os.environ, "DPKG_DEB_COMPRESSOR_LEVEL": "1", **variables})
        if called:
            return os.path.join(self.folder, f"durzhanok_{called}_amd64.deb")
        call("dpkg-deb", "-R", self.file, self.root)
        return self.file

    def path(self, name):
        return os.path.join(self.root, name.lstrip("/"))

    def program(self, name):
        return self.path("usr/bin/" + name)

    def read(self, name):
        with open(self.path(name), encoding="utf-8") as file:
            return file.read()
