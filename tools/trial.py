"""Trials of commands: each says what it tries and what it expects, and one that fails shows both, with what came."""
import os, re, select, signal, subprocess, sys

# no trial takes this many seconds unless it waits for ever
PATIENCE = 60


class Trials:
    def __init__(self, name, folder, environment=None):
        self.name, self.folder, self.environment = name, folder, {**os.environ, **(environment or {})}
        self.loud = "-v" in sys.argv[1:]
        self.tried, self.failed, self.left_out = 0, 0, []

    def run(self, how, stdin=b""):
        """A line for the shell, from this folder; what it wrote on both streams, and its status."""
        try:
            p = subprocess.run(["sh", "-c", how], input=stdin, capture_output=True, cwd=self.folder, env=self.environment, timeout=PATIENCE)
            return p.stdout, p.stderr, p.returncode
        except subprocess.TimeoutExpired as late:
            return late.stdout or b"", (late.stderr or b"") + b"[it did not end]", None

    def holds(self, tries, expected, came):
        """Three things expected, and the three that came: standard output, standard error, status. A pattern may stand for an exact text."""
        self.tried += 1
        good = all(e.fullmatch(c) if isinstance(e, re.Pattern) else e == c for e, c in zip(expected, came))
        if self.loud or not good:
            print(f"{self.name}: {'as expected' if good else 'NOT AS EXPECTED'}: {tries}")
        if not good:
            self.failed += 1
            for what, e, c in zip(("standard output", "standard error", "status"), expected, came):
                print(f"    {what}\n        expected {shown(e)}\n        came     {shown(c)}")
        return good

    def expect(self, tries, how, stdin=b"", out=b"", err=b"", status=0):
        """Runs a line for the shell, and holds what came to what is expected."""
        return self.holds(f"{tries}: {how}", (out, err, status), self.run(how, stdin))

    def leave_out(self, tries, why):
        self.left_out.append(f"{tries} was not tried: {why}")

    def end(self):
        for line in self.left_out:
            print(f"{self.name}: {line}")
        print(f"{self.name}: {self.tried} tried, {self.failed} not as expected")
        sys.exit(1 if self.failed else 0)


def ends_with_its_script(t, words, request, answer, end):
    """A script that a signal ends alone, after its program answered a line and while its input stays open: the program ends too, and closes its output."""
    # who runs the trials may ignore the signal, as nohup does, and a child would inherit that
    heed = None if end == signal.SIGKILL else lambda: signal.signal(end, signal.SIG_DFL)
    pipes = {"stdin": subprocess.PIPE, "stdout": subprocess.PIPE, "stderr": subprocess.PIPE}
    p = subprocess.Popen(words, cwd=t.folder, env=t.environment, bufsize=0, preexec_fn=heed, **pipes)
    p.stdin.write(request)
    came = b""
    while len(came) < len(answer) and select.select([p.stdout], [], [], PATIENCE)[0]:
        came += p.stdout.read(len(answer) - len(came)) or b"[it ended before]"
    p.send_signal(end)
    status = p.wait(timeout=PATIENCE)
    closed = select.select([p.stdout], [], [], PATIENCE)[0]
    came += p.stdout.read() if closed else b"[it goes on]"
    p.stdin.close()
    t.holds(f"{end.name} to {words[0]} alone ends its program too", (answer, b"", -end), (came, p.stderr.read(), status))


def shown(text):
    """A text on one line, cut where it is long."""
    if isinstance(text, re.Pattern):
        return f"a text like {text.pattern.decode()!r}"
    if not isinstance(text, bytes):
        return str(text)
    return f"{text[:400]!r}" + (f" and {len(text) - 400} bytes more" if len(text) > 400 else "")
