#!/usr/bin/env python3
"""Runs the programs in a folder, date_lines, quarrels and week_counts, under faults: python3 tests/faults.py FOLDER

What cannot be read to its end gets no report, and what cannot be written whole is said: one line on standard error. A call that is
interrupted, moves few bytes or would block changes nothing. faults.c, beside this file, makes single calls fail.
"""
import fcntl
import os
import resource
import signal
import subprocess
import sys
import tempfile
import threading
import time

HERE = os.path.dirname(os.path.abspath(__file__))
LIST = b"%F\n1934-03-15\n1934-02-30\n"
# what each program writes first, and then of each kind of text; # is the number of its line
SAYS = {
    "date_lines": {
        "first": b"number place date time\n",
        "read": b"0 10 1934-03-15 --:--:--\n",
        "impossible": b"9 1 - --:--:--\n",
        "ended": b"6 0 - --:--:--\n",
        "other": b"6 0 - --:--:--\n",
        "long": b"5 0 - --:--:--\n",
    },
    "quarrels": {
        "first": b"",
        "read": b"",
        "impossible": b"1934-02-30\n     ^^ ^^\nline #: no day is month 02 and 30 together\n\n",
        "ended": b"\n^\nline #: the text ends before the format does\n\n",
        "other": b"x\n^\nline #: the text does not go on as the format wants\n\n",
        "long": b"x" * 32765 + b"\nline #: the text has more than 1,024 bytes\n\n",
    },
}
# by which number week_counts leaves out each kind of text that it does
LEFT_OUT = {"impossible": 9, "ended": 6, "other": 6, "long": 5}
# as much stack as README says is enough, in kilobytes
STACK = {"date_lines": 256, "quarrels": 256, "week_counts": 512}


def weeks(*texts):
    """What week_counts writes for texts of these kinds."""
    read, numbers = texts.count("read"), [LEFT_OUT[text] for text in texts if text != "read"]
    each = b"".join(b"number %d: %d\n" % (number, numbers.count(number)) for number in sorted(set(numbers)))
    return (b"1934-W11 %d\n" % read if read else b"") + b"left out: %d\n" % len(numbers) + each


class Tests:
    def __init__(self, programs, name, folder):
        self.program, self.name, self.says = os.path.join(os.path.abspath(programs), name), name.encode(), SAYS.get(name)
        self.folder, self.stack, self.count, self.failed = folder, STACK[name] * 1024, 0, 0
        self.usage = b"usage: " + self.name + b" "
        self.not_read = self.name + b": the list could not be read to its end: "
        self.not_written = self.name + b": the report could not be written whole: "
        self.report = self.report_on("read", "impossible")
        self.library = os.path.join(folder, "faults.so")
        subprocess.run(["cc", "-O1", "-shared", "-fPIC", os.path.join(HERE, "faults.c"), "-o", self.library, "-ldl"], check=True)

    def report_on(self, *texts):
        """The report on texts of these kinds."""
        if self.says is None:
            return weeks(*texts)
        lines = (self.says[text].replace(b"#", b"%d" % line) for line, text in enumerate(texts, 2))
        return self.says["first"] + b"".join(lines)

    def file(self, name, content):
        path = os.path.join(self.folder, name)
        with open(path, "wb") as file:
            file.write(content)
        return path

    def run(self, *args, **options):
        """What the program writes on standard output and standard error, after its exit status where that is not 0; the input is LIST
        unless something else is given."""
        if "stdin" not in options:
            options.setdefault("input", LIST)
        options.setdefault("stdout", subprocess.PIPE)
        faults = options.pop("faults", {})
        env = dict(os.environ, LC_ALL="C", **faults, **({"LD_PRELOAD": self.library} if faults else {}))
        done = subprocess.run([self.program, *args], stderr=subprocess.PIPE, env=env, timeout=60, **options)
        return done.stdout, (b"exit status %d: " % done.returncode if done.returncode else b"") + done.stderr

    def expect(self, what, got, out, err=b""):
        """Standard output is `out` (None: it went elsewhere); standard error is one line that begins with `err`, or nothing."""
        written, said = got
        right = written == out and (said.startswith(err) and said.count(b"\n") == 1 and said.endswith(b"\n") if err else said == b"")
        self.count += 1
        self.failed += not right
        if not right:
            print(f"{what}: wrote {written!r:.200}, said {said!r:.200}; expected {out!r:.200}, {err!r}")


def arguments(t):
    path = t.file("list", LIST)
    t.expect("a file", t.run(path, stdin=subprocess.DEVNULL), t.report)
    t.expect("no such file", t.run(path + "x"), b"", t.name + b": the file could not be opened: No such file or directory")
    for words in [(path, path), ("-x",), ("--",), ("-",), ("",), ("--help", path), ("x" * 5000,)]:
        t.expect(f"arguments {words!r:.40}", t.run(*words), b"", t.usage)
    out, err = t.run("--help")
    t.expect("--help", (out[: len(t.usage)], err), t.usage)
    out, err = t.run("--version")
    t.expect("--version", (out[: len(t.name) + 1] + out[-1:], err), t.name + b" \n")


def inputs(t):
    t.expect("nothing amiss", t.run(), t.report)
    t.expect("a directory as the file", t.run(t.folder), b"", t.not_read + b"Is a directory")
    with open(t.folder + "/list", "rb") as file:
        closed = t.run(stdin=file, preexec_fn=lambda: os.close(0))
    t.expect("input closed", closed, b"", t.not_read + b"Bad file descriptor")
    fd = os.open(t.folder, os.O_RDONLY)
    t.expect("a directory as input", t.run(stdin=fd), b"", t.not_read + b"Is a directory")
    os.close(fd)
    for script in ["i", "iiii.i", "1", "1" * 30, "1i1a1", "aaa", ".iii", ".a"]:
        t.expect(f"reads by {script}", t.run(faults={"FAULTS_READ": script}), t.report)
    for script in ["e", ".e", "1" * 20 + "e", "1" * len(LIST) + "e", "iae"]:
        t.expect(f"reads by {script}", t.run(faults={"FAULTS_READ": script}), b"", t.not_read + b"Input/output error")


def slow_input(t):
    """Half the list, then, while the program waits, the rest: by a pipe whose reads do not block."""
    read, write = os.pipe()
    os.set_blocking(read, False)

    def feed():
        with os.fdopen(write, "wb") as pipe:
            for part in [LIST[:12], LIST[12:]]:
                pipe.write(part)
                pipe.flush()
                time.sleep(0.3)

    feeder = threading.Thread(target=feed)
    feeder.start()
    t.expect("half an input, then the rest", t.run(stdin=read), t.report)
    feeder.join()
    os.close(read)


def outputs(t):
    with open("/dev/full", "wb") as full:
        t.expect("a full disk", t.run(stdout=full), None, t.not_written + b"No space left on device")
        for option in ["--help", "--version"]:
            said = t.name + b": the text could not be written whole: No space left on device"
            t.expect(f"a full disk for {option}", t.run(option, stdout=full), None, said)
    t.expect("output closed", t.run(preexec_fn=lambda: os.close(1)), b"", t.not_written + b"Bad file descriptor")
    for script in ["i", "1i1a1", "1" * 70, "a", ".ii"]:
        t.expect(f"writes by {script}", t.run(faults={"FAULTS_WRITE": script}), t.report)
    t.expect("writes by 10", t.run(faults={"FAULTS_WRITE": "10"}), t.report[:1], t.not_written)
    t.expect("writes by 11e", t.run(faults={"FAULTS_WRITE": "11e"}), t.report[:2], t.not_written + b"Input/output error")

    read, write = os.pipe()
    os.close(read)
    ignored = lambda: signal.signal(signal.SIGPIPE, signal.SIG_IGN)
    t.expect("a closed pipe", t.run(stdout=write, preexec_fn=ignored), None, t.not_written + b"Broken pipe")
    t.expect("a closed pipe, with SIGPIPE as it comes", t.run(stdout=write), None, t.not_written + b"Broken pipe")
    os.close(write)

    def limited():
        signal.signal(signal.SIGXFSZ, signal.SIG_IGN)
        resource.setrlimit(resource.RLIMIT_FSIZE, (30, 30))

    path = t.file("out", b"")
    with open(path, "wb") as out:
        t.expect("a file limit", t.run(stdout=out, preexec_fn=limited), None, t.not_written + b"File too large")
    with open(path, "rb") as out:
        t.expect("as far as the limit", (out.read(), b""), t.report[:30])


def slow_output(t):
    """More than a pipe holds, by a pipe whose writes do not block."""
    texts = 20000
    read, write = os.pipe()
    os.set_blocking(write, False)
    fcntl.fcntl(write, fcntl.F_SETPIPE_SZ, 4096)
    got = []

    def drain():
        time.sleep(0.3)
        with os.fdopen(read, "rb") as pipe:
            got.append(pipe.read())

    reader = threading.Thread(target=drain)
    reader.start()
    _, said = t.run(input=b"%M\n" + b"\n" * texts, stdout=write)
    os.close(write)
    reader.join()
    t.expect("a pipe that is full", (got[0], said), t.report_on(*["ended"] * texts))


def stack(t):
    """The longest lists, with as little stack as README says is enough."""
    def small():
        resource.setrlimit(resource.RLIMIT_STACK, (t.stack, t.stack))

    t.expect("32,768 bytes, short lines", t.run(input=b"%M" + b"\n" * 32766, preexec_fn=small), t.report_on(*["ended"] * 32765))
    t.expect("32,768 bytes, one line", t.run(input=b"%M\n" + b"x" * 32765, preexec_fn=small), t.report_on("long"))
    t.expect("32,769 bytes", t.run(input=b"\n" * 32769, preexec_fn=small), b"too long\n")
    t.expect("a long format", t.run(input=b"%c" * 512 + b"\nx\n", preexec_fn=small), t.report_on("other"))
    t.expect("a day that is none", t.run(preexec_fn=small), t.report)


def failures(programs, name):
    """Runs all tests on a program, and answers how many failed."""
    with tempfile.TemporaryDirectory() as folder:
        t = Tests(programs, name, folder)
        for tests in [arguments, inputs, slow_input, outputs, slow_output, stack]:
            tests(t)
    print(f"{name}: {t.count} runs under faults, {t.failed} not as they should be")
    return t.failed


if __name__ == "__main__":
    if len(sys.argv) != 2:
        sys.exit("usage: python3 tests/faults.py FOLDER")
    sys.exit(1 if sum(failures(sys.argv[1], name) for name in STACK) else 0)
