"""A program that reads one job, and its launcher: held to another implementation on whole jobs and on jobs in pieces, and to what is told of failing input
and output."""
import contextlib
import os
import subprocess
import sys
import time

top = os.path.realpath(os.path.join(os.path.dirname(os.path.realpath(__file__)), "../.."))
examples = os.path.join(top, "examples")
example_jobs = sorted(os.path.join(examples, f) for f in os.listdir(examples) if f.endswith(".job"))


def file_bytes(path):
    with open(path, "rb") as file:
        return file.read()


class Program:
    """expected gives the output and the errors that a job's bytes lead to; product is what the program calls its output."""

    def __init__(self, name, expected, product):
        self.name, self.expected, self.product = name, expected, product
        self.path, self.launcher = os.path.join(top, "target/bin", name), os.path.join(top, name.replace("_", "-"))
        self.passed = self.failed = 0
        # newer than its sources afterwards, so the launcher builds nothing and its standard error is that of the run
        subprocess.run([os.path.join(top, "tools/build"), "program", name], check=True, stdout=sys.stderr)

    def count(self, text, fine):
        print(text)
        self.passed, self.failed = self.passed + bool(fine), self.failed + (not fine)

    def answer(self, pieces):
        """Status, output and errors on a job whose pieces come 0.05 s apart."""
        with subprocess.Popen([self.path], bufsize=0, stdin=subprocess.PIPE, stdout=subprocess.PIPE, stderr=subprocess.PIPE) as child:
            for piece in pieces[:-1]:
                with contextlib.suppress(BrokenPipeError):
                    child.stdin.write(piece)
                time.sleep(0.05)
            out, err = child.communicate(pieces[-1])
        return child.returncode, out, err

    def group(self, name, jobs):
        """Compares and returns the outputs. A job is its bytes, or a tuple of its pieces."""
        bad, outs = 0, []
        for job in jobs:
            pieces = job if isinstance(job, tuple) else (job,)
            data = b"".join(pieces)
            status, out, err = self.answer(pieces)
            outs.append(out)
            if (status, out, err) != (0, *self.expected(data)):
                bad += 1
                if bad <= 3:
                    print("  not so:", [len(p) for p in pieces], data[:40].hex(), status, err, out[:200], *(text[:200] for text in self.expected(data)))
        self.count(f"{name}: {len(jobs)} jobs, {bad} differ", not bad)
        return outs

    def launches(self, name, files):
        """Whether the launcher answers with the output and errors given for each file, by its name and on standard input, and with status 1 where it has errors."""
        bad = []
        for path, (out, err) in files.items():
            with open(path, "rb") as file:
                runs = [subprocess.run([self.launcher, path], capture_output=True), subprocess.run([self.launcher], stdin=file, capture_output=True)]
            if any((r.returncode, r.stdout, r.stderr) != (bool(err), out, err) for r in runs):
                bad.append(os.path.basename(path))
        self.count(f"{name}: {len(files)} jobs, {len(bad)} differ {bad}", files and not bad)

    def ended(self, name, command, status, err, **streams):
        """The status, the errors (None: one line of the shell's) and nothing of a result on standard output."""
        got = subprocess.run(command, stderr=subprocess.PIPE, timeout=60, **streams)
        fine = got.returncode == status and (got.stderr == err if err is not None else got.stderr.count(b"\n") == 1) and not got.stdout
        self.count(f"{name}: status {got.returncode}, {got.stderr}, {'fine' if fine else 'not so'}", fine)

    def failing_streams(self):
        """Input that cannot be read, output that cannot be written."""
        unread, unwritten = f"{self.name}: the job could not be read\n".encode(), f"{self.name}: the {self.product} could not be written\n".encode()
        job, folder = os.path.join(examples, "sample.job"), os.open(top, os.O_RDONLY)
        reader, nobody = os.pipe()
        os.close(reader)
        for command, status in (([self.path], 0), ([self.launcher], 1)):  # the program has no status of its own
            name = os.path.basename(command[0])
            self.ended(f"{name}, a folder as standard input", command, status, unread, stdin=folder, stdout=subprocess.PIPE)
            with open(job, "rb") as file, open("/dev/full", "wb") as full:
                self.ended(f"{name}, a full device as standard output", command, status, unwritten, stdin=file, stdout=full)
        name = os.path.basename(self.launcher)
        self.ended(f"{name}, a folder as FILE", [self.launcher, top], 1, unread, stdout=subprocess.PIPE)
        self.ended(f"{name}, no such FILE", [self.launcher, os.path.join(examples, "none.job")], 1, None, stdout=subprocess.PIPE)
        self.ended(f"{name}, two FILEs", [self.launcher, job, job], 1, f"{name}: one FILE, or standard input\n".encode(), stdout=subprocess.PIPE)
        self.ended(f"{name}, standard input closed", ["bash", "-c", '"$0" <&-', self.launcher], 1, None, stdout=subprocess.PIPE)
        self.ended(f"{name}, standard output closed", ["bash", "-c", '"$0" "$1" >&-', self.launcher, job], 1, None)
        self.ended(f"{name}, the program ended by a signal (SIGPIPE)", [self.launcher, job], 128 + 13, b"", stdout=nobody)

    def failing_output(self):
        """Output that cannot be written, with a job on standard input."""
        unwritten = f"{self.name}: the {self.product} could not be written\n".encode()
        name = os.path.basename(self.launcher)
        reader, nobody = os.pipe()
        os.close(reader)
        with open("/dev/full", "wb") as full:
            for text, command, status, err, out in (
                    (f"{self.name}, a full device as standard output", [self.path], 0, unwritten, full),  # the program has no status of its own
                    (f"{name}, a full device as standard output", [self.launcher], 1, unwritten, full),
                    (f"{name}, standard output closed", ["bash", "-c", '"$0" >&-', self.launcher], 1, None, None),
                    (f"{name}, the program ended by a signal (SIGPIPE)", [self.launcher], 128 + 13, b"", nobody)):
                with open(os.path.join(examples, "sample.job"), "rb") as file:
                    self.ended(text, command, status, err, stdin=file, stdout=out)

    def finish(self):
        print(f"{self.passed} passed, {self.failed} failed")
        sys.exit(self.failed != 0)
