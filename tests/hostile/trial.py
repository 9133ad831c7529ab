"""A folder with files in which the program is run, and what came out compared with the model."""
import os
import select
import shutil
import signal

from model import FOLDER, Model

SECONDS = 60
"""How long a run may take."""


class Trial:
    """The program in the folder that is the current one. One outcome in `plant` is changed before it is compared, none if that is 0: a test of
    the comparison."""

    def __init__(self, program, plant=0):
        self.program, self.plant = program, plant
        self.files, self.model, self.words, self.given, self.was = {}, None, [], b"", None
        self.is_changed, self.asked = False, 0
        self.null = os.open(os.devnull, os.O_RDONLY)
        self.streams = [os.memfd_create(name) for name in ("out", "err", "given")]

    def put(self, files):
        """Makes the folder one with these files."""
        for name in os.listdir("."):
            if name not in files:
                shutil.rmtree(name) if os.path.isdir(name) else os.remove(name)
        for name, text in files.items():
            if text is FOLDER:
                os.makedirs(name, exist_ok=True)
            elif self.files.get(name) != text or not os.path.exists(name):
                with open(name, "wb") as file:
                    file.write(text)
        is_same = self.model is not None and self.files.get("net.gr") == files.get("net.gr")
        self.files, self.model = dict(files), Model(files, self.model.read_before if is_same else None)

    def ask(self, words, given=b""):
        """Status, standard output and standard error of the program; a status below 0 is a signal's, None a run without end. Standard input
        is a pipe if it is short, else a file."""
        out, err, kept = self.streams
        for stream in self.streams:
            os.lseek(stream, 0, 0)
            os.ftruncate(stream, 0)
        reader = self.null
        if given and len(given) <= 4096:
            reader, writer = os.pipe()
            os.write(writer, given)
            os.close(writer)
        elif given:
            os.write(kept, given)
            os.lseek(kept, 0, 0)
            reader = kept
        actions = [(os.POSIX_SPAWN_DUP2, old, new) for new, old in enumerate((reader, out, err))]
        run = os.posix_spawn(self.program, [self.program, *words], {}, file_actions=actions, setsigdef=[signal.SIGPIPE])
        if reader not in (self.null, kept):
            os.close(reader)
        watch = os.pidfd_open(run)
        poll = select.poll()
        poll.register(watch, select.POLLIN)
        is_late = not poll.poll(1000 * SECONDS)
        os.close(watch)
        if is_late:
            os.kill(run, signal.SIGKILL)
        status = os.waitstatus_to_exitcode(os.waitpid(run, 0)[1])
        self.words, self.given = words, given
        self.was = None if is_late else status, os.pread(out, os.fstat(out).st_size, 0), os.pread(err, os.fstat(err).st_size, 0)
        return self.was

    def judge(self, words, given=b""):
        """Runs the program on words. Says what is wrong with what came out, or with the files that are left; None if nothing is."""
        wanted = self.model.wanted(words, given)
        outcome = self.changed(*self.ask(words, given))
        return self.left(wanted.file) or wanted.fault(*outcome)

    def left(self, written):
        """Says what is wrong with the files that are left, and puts back those that were there."""
        names = set(os.listdir("."))
        if not written:
            return None if names == set(self.files) else self.put_back(f"files that are left: {sorted(names ^ set(self.files))}")
        name, content = written
        if names != {*self.files, name}:
            return self.put_back(f"files that are left: {sorted(names ^ {*self.files, name})}")
        with open(name, "rb") as file:
            wrong = content.fault(0, file.read(), b"")
        if wrong:
            return self.put_back(f"in {name}: {wrong}")
        self.put_back("")
        return None

    def put_back(self, wrong):
        files, self.files = self.files, {}
        self.put(files)
        return wrong

    # A test of the comparison

    def is_due(self):
        """Whether the next outcome is to be changed."""
        self.asked += 1
        is_due = self.plant > 0 and self.asked % self.plant == 0
        self.is_changed |= is_due
        return is_due

    def changed(self, status, out, err):
        """The outcome, or one time in `plant` another one: of another status, without its message, or with another digit in a line that is judged
        exactly."""
        if not self.is_due():
            return status, out, err
        places = [at for at, byte in enumerate(out) if byte in b"0123456789"]
        places = [at for at in places if out[out.rfind(b"\n", 0, at) + 1 : at + 1][:1] not in (b"c", b"r")]
        turn = self.asked // self.plant % 3
        if turn == 0 and places:
            at = places[self.asked * 7 % len(places)]
            return status, out[:at] + b"%d" % ((out[at] - 47) % 10) + out[at + 1 :], err
        return (status, out, b"" if err else b"earliest: no fault\n") if turn == 1 else (status + 1, out, err)
