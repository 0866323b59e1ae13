# Tests of what the package has: versions, programs, manual pages, units, completion, documents. Outside the proof.
import glob
import gzip
import os
import re
import stat
import subprocess
import tempfile

from package import HERE, PROGRAMS, TOP, Package, call, equal, version

UNITS = {"durzhanok-gateway": 20, "durzhanok-agent": 31}  # the exposure that systemd may find, in tenths: the agent starts tasks as their users, with limits
PAGES = {"drf": 1, "durzhanok-gateway": 8, "durzhanok-agent": 8}
DOC = "usr/share/doc/durzhanok"


def test_all_have_one_version(package):
    equal("drf --version", call(package.program("drf"), "--version"), f"drf {version()}\n")
    for name in ("durzhanok-gateway", "durzhanok-agent"):
        equal(f"{name} --version", call(package.program(name), "--version"), f"{name} {version()}\n")
    equal("the package", call("dpkg-deb", "-f", package.file, "Version"), version() + "\n")
    with open(os.path.join(TOP, "CHANGELOG.md"), encoding="utf-8") as file:
        equal("the newest release in CHANGELOG.md", re.search(r"^## \[([0-9][^]]*)\]", file.read(), flags=re.M)[1], version())


def test_two_builds_are_the_same_bytes(package):
    with tempfile.TemporaryDirectory() as folder:
        other = os.path.join(folder, "another place")
        os.mkdir(other)
        tracked = call("git", "-C", TOP, "ls-files", "-z", "--cached", "--others", "--exclude-standard")
        copy(tracked, other)
        again = Package(os.path.join(folder, "built"), other)
        old = os.umask(0o077)
        try:
            again.build(TZ="Asia/Tokyo", LC_ALL="C.UTF-8")
        finally:
            os.umask(old)
        for name in PROGRAMS:
            assert open(package.program(name), "rb").read() == open(again.program(name), "rb").read(), f"the bytes of {name} depend on the folder"
        assert open(package.file, "rb").read() == open(again.file, "rb").read(), "the programs are the same, the packages are not"


def copy(names, target):
    """Copies files of this checkout, whose names end with a zero byte, to another folder."""
    archive = subprocess.run(["tar", "-C", TOP, "--null", "-T", "-", "-cf", "-"], input=names.encode(), capture_output=True, check=True).stdout
    subprocess.run(["tar", "-C", target, "-xf", "-"], input=archive, check=True)


def test_lintian_finds_no_error_and_no_warning(package):
    equal("lintian", call("lintian", "--allow-root", "--fail-on", "error,warning", package.file), "")


def test_drf_is_the_released_program(package):
    call(os.path.join(TOP, "dist", "verify"), package.program("drf"))
    with tempfile.NamedTemporaryFile() as other:
        other.write(open(package.program("drf"), "rb").read() + b"x")
        other.flush()
        call(os.path.join(TOP, "dist", "verify"), other.name, status=1)


def test_owners_modes_and_digests_are_right(package):
    for line in call("dpkg-deb", "-c", package.file).splitlines():
        mode, owner, *_, name = line.split(" -> ")[0].split(None, 5)
        assert owner == "root/root", line
        want = "drwxr-xr-x" if mode[0] == "d" else "lrwxrwxrwx" if mode[0] == "l" else "-rwxr-xr-x" if name.startswith("./usr/bin/") else "-rw-r--r--"
        equal(name, mode, want)
    call("md5sum", "--quiet", "-c", "DEBIAN/md5sums", cwd=package.root)
    listed = {line.split("  ", 1)[1] for line in package.read("DEBIAN/md5sums").splitlines()}
    there = {os.path.relpath(os.path.join(folder, name), package.root) for folder, _, names in os.walk(package.root) for name in names}
    equal("files without a digest", {name for name in there - listed if not name.startswith("DEBIAN/") and not os.path.islink(package.path(name))}, set())
    conffiles = {"/" + os.path.relpath(name, package.root) for name in glob.glob(package.path("etc/*/*"))}
    equal("conffiles", set(package.read("DEBIAN/conffiles").split()), conffiles)
    for script in ("postinst", "prerm", "postrm"):
        assert os.stat(package.path("DEBIAN/" + script)).st_mode & stat.S_IXUSR, f"{script} cannot run"
        call("sh", "-n", package.path("DEBIAN/" + script))


def flags_in(text):
    """The flags in a help, where each begins a line, or in a usage, where each is in brackets."""
    return set(re.findall(r"(?:^  |\[)(-[a-z-]+)", text, flags=re.M)) | {"-help"}


def commands_of_gateway(package):
    return re.findall(r"^       durzhanok-gateway ([a-z-]+) ", call(package.program("durzhanok-gateway"), "-help"), flags=re.M)


def help_of(package, name, with_commands=False):
    """The flags that the help of a program prints. For drf, and for the gateway if that is asked for: also those of all commands."""
    text = call(package.program(name), "--help")
    if name == "durzhanok-gateway" and with_commands:
        text += "".join(call(package.program(name), command, "-help") for command in commands_of_gateway(package))
    if name != "drf":
        return flags_in(text)
    for command in commands_of(package):
        text += call(package.program(name), command, "--help")
    return set(re.findall(r"(?<=[ ,])(--?[A-Za-z][a-z-]*)(?=[ ,\n])", "\n".join(re.findall(r"^ +-.*", text, flags=re.M)).replace(" ", "  ")))


def commands_of(package):
    return re.findall(r"^  ([a-z]+)  ", call(package.program("drf"), "--help").split("\nOptions")[0], flags=re.M)


def page_of(package, name, section):
    with gzip.open(package.path(f"usr/share/man/man{section}/{name}.{section}.gz"), "rt", encoding="utf-8") as file:
        return file.read()


def test_manual_pages_have_no_warning(package):
    for name, section in [*PAGES.items(), ("durzhanok", 7)]:
        page = package.path(f"usr/share/man/man{section}/{name}.{section}.gz")
        done = subprocess.run(["man", "--warnings", "-E", "UTF-8", "-l", page], capture_output=True, text=True, check=False, env={**os.environ, "MANWIDTH": "80", "LC_ALL": "C.UTF-8"})
        equal(f"man {name}", (done.returncode, done.stderr), (0, ""))
        assert f"Durzhanok {version()}" in done.stdout and "@" not in page_of(package, name, section), f"{name} has no version or no date"


def flags_of(part):
    """The lines of a section of a page that begin the description of a flag."""
    return re.findall(r"^\.TP\n(\..*)", part, flags=re.M)


def test_manual_pages_have_the_flags_of_the_help(package):
    for name, section in PAGES.items():
        text = page_of(package, name, section)
        options = text.replace("\\-", "-").split(".SH OPTIONS")[1].split(".SH EXIT STATUS")[0]
        synopsis = text.replace("\\-", "-").split(".SH SYNOPSIS")[1].split(".SH DESCRIPTION")[0]
        tags = re.findall(r"^\.TP\n(\..*)", options, flags=re.M) + synopsis.splitlines()
        equal(f"{name}: described twice in a section", [part for part in re.split(r"^\.S[SH]", options, flags=re.M) if len(flags_of(part)) > len(set(flags_of(part)))], [])
        flags = {flag for tag in tags for flag in re.findall(r'(?<![A-Za-z-])--?[A-Za-z][a-z-]*', tag)}
        equal(f"{name}: in the page, not in the help", flags - help_of(package, name, with_commands=True), set())
        equal(f"{name}: in the help, not in the page", help_of(package, name, with_commands=True) - flags, set())
    synopsis = page_of(package, "durzhanok-gateway", 8).split(".SH SYNOPSIS")[1].split(".SH DESCRIPTION")[0]
    equal("commands of the gateway", set(re.findall(r"^\.B durzhanok-gateway ([a-z-]+)", synopsis, flags=re.M)), set(commands_of_gateway(package)))
    text = page_of(package, "drf", 1)
    tags = re.findall(r"^\.TP\n\.B ([a-z]+)$", text.split(".SH COMMANDS")[1].split(".SH OPTIONS")[0], flags=re.M)
    equal("commands of drf", sorted(tags), sorted(commands_of(package)))


def test_units_are_right_and_hardened(package):
    with tempfile.TemporaryDirectory() as folder:
        for name, exposure in UNITS.items():
            unit = os.path.join(folder, name + ".service")
            with open(unit, "w", encoding="utf-8") as file:  # neither program nor pages need be installed here
                file.write(re.sub(r"^Documentation=.*\n", "", re.sub(r"^(ExecStart=)\S+", r"\1/bin/true", package.read(f"lib/systemd/system/{name}.service"), flags=re.M), flags=re.M))
            done = subprocess.run(["systemd-analyze", "verify", unit], capture_output=True, text=True, check=False)
            equal(f"systemd-analyze verify {name}", (done.returncode, done.stderr), (0, ""))
            call("systemd-analyze", "security", "--offline=yes", f"--threshold={exposure}", unit)


def test_units_name_programs_files_and_flags_that_there_are(package):
    for name in UNITS:
        unit, defaults = package.read(f"lib/systemd/system/{name}.service"), package.read(f"etc/default/{name}")
        start = re.search(r"^ExecStart=(.*)", unit, flags=re.M)[1]
        equal("program", start.split()[0], f"/usr/bin/{name}")
        flags = set(re.findall(r"\s(-[a-z-]+)", start)) | set(re.findall(r'[\s"](-[a-z-]+)', defaults))
        equal(f"unknown flags of {name}", flags - help_of(package, name), set())
        equal(f"last line of /etc/default/{name}", re.fullmatch(r'FLAGS="[^"]*"', defaults.splitlines()[-1]) is not None, True)
        equal("file of flags", re.search(r"^EnvironmentFile=-(.*)", unit, flags=re.M)[1], f"/etc/default/{name}")


def complete(package, line):
    """What bash completes at the end of a line, with the programs of the package."""
    script = '''
        shopt -s extglob
        . "$1/usr/share/bash-completion/completions/$(basename "$(readlink -f "$1/usr/share/bash-completion/completions/$2")")"
        read -r -a COMP_WORDS <<<"$3"
        [[ $3 == *" " ]] && COMP_WORDS+=("")
        COMP_CWORD=$((${#COMP_WORDS[@]} - 1)) COMP_LINE=$3 COMP_POINT=${#3}
        compopt() { :; }
        function=$(complete -p "$2" | sed 's/.*-F \\([^ ]*\\).*/\\1/')
        "$function" "$2" "${COMP_WORDS[COMP_CWORD]}" "${COMP_WORDS[COMP_CWORD-1]}"
        printf '%s\\n' "${COMPREPLY[@]}"
    '''
    environment = {**os.environ, "PATH": package.path("usr/bin") + ":" + os.environ["PATH"]}
    return set(call("bash", "-euc", script, "bash", package.root, line.split()[0], line, env=environment).split())


def test_bash_completes_commands_and_flags(package):
    equal("drf", complete(package, "drf "), set(commands_of(package)))
    equal("drf -", complete(package, "drf -"), {"-h", "--help", "-V", "--version"})
    for command in commands_of(package):
        want = set(re.findall(r"--?[a-z]+(?=[, \n]|$)", "\n".join(re.findall(r"^ +((?:-[a-z], )?--[a-z]+)", call(package.program("drf"), command, "--help"), flags=re.M))))
        equal(f"drf {command} -", complete(package, f"drf {command} -"), want)
    for line, want in {"drf ex": {"explain"}, "drf run --e": {"--echo"}, "drf explain --c": {"--client"}, "durzhanok-gateway -peer-": {"-peer-ca", "-peer-cert", "-peer-key"},
                       "durzhanok-gateway t": {"token"}, "durzhanok-gateway ": set(commands_of_gateway(package)), "durzhanok-gateway cr": {"credentials"}, "durzhanok-gateway import -pa": {"-partial"},
                       "durzhanok-gateway token ": {"add", "list", "revoke"}, "durzhanok-gateway token add -e": {"-expires"}, "durzhanok-gateway credentials -t": {"-tokens"},
                       "durzhanok-agent -pr": {"-principal"}, "durzhanok-agent t": set(), "drf run --from ": set()}.items():
        equal(line, complete(package, line), want)
    for name in ("durzhanok-gateway", "durzhanok-agent"):
        equal(f"{name} -", complete(package, f"{name} -"), help_of(package, name))


def test_links_of_the_documents_lead_to_files(package):
    broken = []
    for folder, _, names in os.walk(package.path(DOC)):
        for name in names:
            if name.endswith(".md"):
                text = re.sub(r"^(    |```).*", "", open(os.path.join(folder, name), encoding="utf-8").read(), flags=re.M)
                for target in re.findall(r"\]\(([^)#\s]+)", text):
                    if "://" not in target and not os.path.exists(os.path.join(folder, target)):
                        broken.append(f"{os.path.relpath(os.path.join(folder, name), package.path(DOC))}: {target}")
    equal("broken links", broken, [])


def test_the_changelog_is_one_of_debian(package):
    with tempfile.NamedTemporaryFile(suffix=".changelog") as file:
        file.write(gzip.open(package.path(DOC + "/changelog.gz")).read())
        file.flush()
        done = subprocess.run(["dpkg-parsechangelog", "-l", file.name, "-S", "Version"], capture_output=True, text=True, check=False)
        equal("dpkg-parsechangelog", (done.returncode, done.stdout, done.stderr), (0, version() + "\n", ""))


def test_a_wrong_call_of_the_builder_is_refused(package):
    for words in (["--as"], ["--as", "not a version", package.folder], [package.folder, "x"]):
        done = subprocess.run([os.path.join(HERE, "deb"), *words], capture_output=True, text=True, check=False)
        assert done.returncode == 2 and "usage:" in done.stderr, f"{words}: {done.returncode} {done.stderr}"


TESTS = [test_all_have_one_version, test_two_builds_are_the_same_bytes, test_lintian_finds_no_error_and_no_warning, test_drf_is_the_released_program,
         test_owners_modes_and_digests_are_right, test_manual_pages_have_no_warning, test_manual_pages_have_the_flags_of_the_help, test_units_are_right_and_hardened,
         test_units_name_programs_files_and_flags_that_there_are, test_bash_completes_commands_and_flags, test_links_of_the_documents_lead_to_files,
         test_the_changelog_is_one_of_debian, test_a_wrong_call_of_the_builder_is_refused]
