"""What tests of `serve --journal` share: the file's format, processes with a journal, scripts and their answers."""
import concurrent.futures
import contextlib
import os
import select
import subprocess
import tempfile

OPEN, CLOSED = b"\x06", b"\x15"  # gates
LIMIT = 60  # seconds for one process, which takes some milliseconds
SIDE_BY_SIDE = 8
TWO = ["--clients", "2"]
# What a client writes at once, and what it would have written next.
BURSTS = [b"start 0 1 5 7\nstart 1 1 9 8\n", b"tick 5\n", b"stop 1 2 2\nstart 1 3 1 9\ntick 1\nstate\n"]
MORE = b"start 0 2 3 7\ntick 3\n"


# The format, by hand: gates, lengths, checksums.
def body(text):
    total = 1
    for byte in text:
        total = (total + byte) * 1_099_511_628_211 % 2**64
    return len(text).to_bytes(8, "big") + total.to_bytes(8, "big") + text


def file_of(groups):
    return b"".join(OPEN + body(text) for text in groups) + CLOSED


def read(file):
    """The groups, and what is behind them."""
    groups = []
    while file[:1] == OPEN and len(file) >= 17:
        text = file[17:17 + int.from_bytes(file[1:9], "big")]
        if not file.startswith(body(text), 1):
            break
        groups.append(text)
        file = file[17 + len(text):]
    return groups, file


def may_be_torn(tail):
    """Whether a crash may have left this behind the groups: a torn gate has one group behind it at most."""
    if len(tail) < 2 or tail[:1] == CLOSED:
        return True
    return tail[:1] != OPEN and (len(tail) <= 17 or len(tail) - 18 <= int.from_bytes(tail[1:9], "big"))


def is_foreign(file):
    """Whether it was never a journal: a text begins with no gate."""
    return len(file) > 1 and file[:1] not in (OPEN, CLOSED)


def preamble(options="hier 2 1024 256", state="state open 0 0\nstate end 0\n", lines=0, answers=0):
    return f"timers-journal 1 {options}\nbegins {lines} {answers} {len(state)}\n{state}".encode()


class Scene:
    """A program, and a folder with a journal."""

    def __init__(self, program, folder):
        self.program, self.folder = program, tempfile.mkdtemp(dir=folder)
        self.journal, self.front = os.path.join(self.folder, "journal"), []

    def command(self, *words, journal=None):
        return [*self.front, self.program, "serve", "--journal", journal or self.journal, *map(str, words)]

    def serve(self, *words, text=b"", journal=None, **how):
        """Status, output and errors."""
        command = self.command(*words, journal=journal)
        try:
            done = subprocess.run(command, input=text, capture_output=True, timeout=LIMIT, check=False, **how)
        except subprocess.TimeoutExpired:
            return f"ended after its limit of {LIMIT} s", b"", b""
        return done.returncode, done.stdout, done.stderr

    def begin(self, *words, **how):
        pipes = dict.fromkeys(("stdin", "stdout", "stderr"), subprocess.PIPE)
        return subprocess.Popen(self.command(*words), bufsize=0, **pipes, **how)

    def write(self, data):
        with open(self.journal, "wb") as file:
            file.write(data)

    def held(self):
        """The bytes of the journal: none if there is no file."""
        with contextlib.suppress(FileNotFoundError), open(self.journal, "rb") as file:
            return file.read()
        return b""

    def converse(self, bursts, answers, *words, **how):
        """Writes each burst when the answers to those before have come: one read, and one group, for each."""
        process, said = self.begin(*words, **how), b""
        for burst, lines in zip([b"", *bursts], [1, *answers]):
            with contextlib.suppress(BrokenPipeError):
                os.write(process.stdin.fileno(), burst)
            wanted = said.count(b"\n") + lines
            while said.count(b"\n") < wanted and select.select([process.stdout], [], [], LIMIT)[0]:
                piece = os.read(process.stdout.fileno(), 65536)
                if not piece:
                    break
                said += piece
        rest, errors = process.communicate(timeout=LIMIT)
        return process.returncode, said + rest, errors


def all_of(function, given):
    """What the function gives for each, several at a time."""
    with concurrent.futures.ThreadPoolExecutor(SIDE_BY_SIDE) as pool:
        return list(pool.map(function, given))


def calls_of_system(folder):
    """What is loaded before a program to note its calls, and to let some fail or wait."""
    made = os.path.join(folder, "calls.so")
    source = os.path.join(os.path.dirname(os.path.abspath(__file__)), "c", "journal_calls.c")
    subprocess.run([*os.environ.get("CC", "cc").split(), "-O1", "-shared", "-fPIC", "-o", made, source], check=True)
    return made


def served(program, *words, text):
    """The lines that one process without a journal writes."""
    return subprocess.run([program, "serve", *words], input=text, capture_output=True, check=True).stdout.splitlines(True)


def answers_of(program, script, *words):
    """The answers of one process without a journal, and the line at the end; and how many come before each line. Wake-ups, by which
    it is known that a line was played, are none."""
    answers, before = [], [0]
    command = [program, "serve", *dict.fromkeys([*words, "--wakeups"])]
    with subprocess.Popen(command, stdin=subprocess.PIPE, stdout=subprocess.PIPE) as process:
        for line in script:
            process.stdin.write(line)
            process.stdin.flush()
            while (answer := process.stdout.readline()) and not answer.startswith(b"wakeup"):
                answers.append(answer[:-1])
            before.append(len(answers))
        process.stdin.close()
        answers += process.stdout.read().splitlines()
    return answers, before


def made_script(r, count):
    """Good lines of two clients, of which some requests are refused."""
    script, numbers, serial = [], [0, 0], 1
    while len(script) < count:
        client, what = r.randrange(2), r.random()
        number, timer = numbers[client] + 1, max(1, serial - r.randrange(30))
        if what < 0.2:
            line = r.choice([f"tick {r.randint(1, 9)}", f"tick {r.randint(1, 9)}", f"at {r.randrange(len(script) + 1)}", "state"])
        elif what < 0.23:
            line = f"start {client} {number + r.choice([-1, 1])} 5 5"
        else:
            numbers[client], until = number, r.choice([r.randrange(300), 60])
            line = r.choice([f"start {client} {number} {until} {number}", f"stop {client} {number} {timer}",
                             f"restart {client} {number} {timer} {until} {number}", f"start-at {client} {number} {len(script)} 3"])
            serial += line[:3] != "sto"
        script.append(f"{line}\n".encode())
    return script


def stages_of(program):
    """After each burst, all answers so far and the line at the end; and how many answers each burst has."""
    stages = []
    for count in range(len(BURSTS) + 2):
        text = b"".join([*BURSTS, MORE][:count])
        *answers, end = served(program, *TWO, text=text)
        stages.append((answers, end))
    return stages, [len(now[0]) - len(before[0]) for before, now in zip(stages, stages[1:])]
