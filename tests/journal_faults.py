"""What tests/journal sees of journals that are refused, of disks that fail, and of power cuts."""
import os
import random
import re
import resource
import shutil
import signal
import subprocess

import counts
from formats import EXITS
from journals import (BURSTS, LIMIT, MORE, TWO, Scene, all_of, body, calls_of_system, file_of, is_foreign, may_be_torn, preamble,
                      read, stages_of)

NOBODY = 65534
FULL = rb"[Nn]o space left on (the )?device"


def see_refused(program, folder):
    scene = Scene(program, folder)
    begun = file_of([preamble(), *BURSTS])

    def refused(name, reason, *words, journal=None, file=begun, **how):
        """Refused before a line is read, with one line on standard error; the file stays as it is."""
        path = journal or scene.journal
        if not journal:
            scene.write(file)
        status, out, errors = scene.serve(*(words or TWO), text=b"start 0 2 1 1\n", journal=journal, **how)
        same = journal or scene.held() == file
        said = re.fullmatch(f"timers: {re.escape(path)}(:\\d+)?: {reason}\n", errors.decode())
        counts.see((status, out) == (EXITS["REFUSED"], b"") and said and same, name, (status, out, errors, same))

    refused("a folder", "Is a directory", journal=scene.folder)
    refused("a folder that is not there", "No such file or directory", journal=os.path.join(scene.folder, "none", "journal"))
    def bounded():
        resource.setrlimit(resource.RLIMIT_AS, (1 << 30, 1 << 30))

    if subprocess.run([program, "--version"], capture_output=True, check=False, preexec_fn=bounded).returncode:
        counts.skip("devices", "the program is a build with a sanitizer, which needs more than 1 GB of addresses")
    else:
        for device in filter(os.path.exists, ["/dev/full", "/dev/zero", "/dev/null", "/dev/tty0"]):
            refused(device, ".*", journal=device, preexec_fn=bounded)
    os.mkfifo(os.path.join(scene.folder, "pipe"))
    refused("a pipe", ".*", journal=os.path.join(scene.folder, "pipe"))
    diary = b"Dear diary, today it rained.\n" * 200
    for length in 2, 9, 17, 18, 40, 4000:
        refused(f"a text of {length} bytes", "no journal", file=diary[:length])
    refused("a group of other text", "no journal", file=file_of([b"Dear diary\n"]))
    refused("another version", "a journal of another version", file=file_of([preamble().replace(b" 1 ", b" 2 ", 1)]))
    for counts_of in b"00 0", b"0 +1", b"0":
        wrong = preamble().replace(b"begins 0 0", b"begins " + counts_of, 1)
        refused(f"a beginning with {counts_of}", "a journal with a wrong beginning", file=file_of([wrong]))
    refused("a beginning without its options' end", "a journal of other options: .*", file=file_of([preamble().split(b"\n")[0]]))
    for options in [["--clients", "3"], [*TWO, "--capacity", "1025"], [*TWO, "--scheme", "plain"], [*TWO, "--slots", "8"]]:
        refused(f"other options: {options}", "a journal of other options: hier 2 1024 256", *options)
    refused("a state that is cut off", ".*", file=file_of([preamble()[:-4]]))
    refused("a state that can't be", ".*", file=file_of([preamble(state="state open 0 0\nnumber 0 0\nnumber 2 0\nstate end 0\n")]))
    answers = len(stages_of(program)[0][-2][0])
    refused("more answers seen than it has", ".*", *TWO, "--seen", str(answers + 1))
    later = file_of([preamble(lines=5, answers=4), BURSTS[0]])
    refused("fewer answers seen than are before its beginning", ".*", *TWO, "--seen", "3", file=later)
    state = os.path.join(scene.folder, "state")
    with open(state, "wb") as file:
        file.write(b"state open 0 0\nnumber 0 0\nnumber 1 0\nstate end 0\n")
    refused("a state, and a journal that has begun", ".* a journal that has begun", *TWO, "--state", state)
    for words in [["--seen", "1"], ["--snapshot", "9"]]:
        done = subprocess.run([program, "serve", *words], input=b"tick 1\n", capture_output=True, timeout=LIMIT, check=False)
        counts.see((done.returncode, done.stdout) == (EXITS["REFUSED"], b"") and done.stderr, f"{words[0]} without a journal", done)
    with scene.begin(*TWO) as other:
        other.stdout.read(1)
        refused("another process has it", "in use by another process", file=scene.held())
        other.communicate()


def see_rights(program, folder):
    """A file and a folder that may only be read, by a user who is not root."""
    scene, how = Scene(program, folder), {}
    if os.geteuid() == 0:
        how = {"user": NOBODY, "group": NOBODY, "extra_groups": []}
        scene.program = shutil.copy(program, scene.folder)
        os.chmod(folder, 0o755)
    os.chmod(scene.folder, 0o777)
    counts.same("a folder that may be written to", scene.serve(*TWO, **how), (EXITS["DONE"], b"recovered 0 0\nend 0 0\n", b""))
    os.chmod(scene.journal, 0o444)
    denied = f"timers: {scene.journal}: Permission denied\n".encode()
    counts.same("a file that may only be read", scene.serve(*TWO, text=BURSTS[0], **how), (EXITS["REFUSED"], b"", denied))
    os.chmod(scene.journal, 0o666)
    os.chmod(scene.folder, 0o555)
    ended = scene.serve(*TWO, text=BURSTS[0], journal=os.path.join(scene.folder, "new"), **how)
    counts.same("a folder that may only be read", ended, (EXITS["REFUSED"], b"", denied.replace(b"/journal:", b"/new:")))
    status, out, errors = scene.converse(BURSTS[:2], [2, 1], *TWO, "--snapshot", "1", **how)
    said = out == b"recovered 0 0\nstarted 0 1 1 5\nstarted 1 1 2 9\n" and errors.count(b"\n") == 1
    counts.see(status == EXITS["FAILED"] and said, "a snapshot in a folder that may only be read", (status, out, errors))
    counts.same("what was answered before it is kept", scene.serve(*TWO, **how), (EXITS["DONE"], b"recovered 2 2\nend 0 2\n", b""))
    os.chmod(scene.folder, 0o755)


def see_full(program, folder):
    """A disk that is full, and a file that may not grow: what was answered is kept."""
    bursts = [b"".join(b"start 0 %d 1000 %d\n" % (n, n) for n in range(first, first + 10)) for first in range(1, 2000, 10)]
    told = [10] * len(bursts)

    def small():
        signal.signal(signal.SIGXFSZ, signal.SIG_IGN)
        resource.setrlimit(resource.RLIMIT_FSIZE, (4000, 4000))

    for own in [], ["--snapshot", "1"]:
        scene, words = Scene(program, folder), [*TWO, *own]
        status, out, errors = scene.converse(bursts, told, *words, preexec_fn=small)
        said = re.fullmatch(b"timers: %s: %s\n" % (os.fsencode(scene.journal), FULL), errors)
        ended = status == EXITS["FAILED"] and said and out.count(b"\n") > 10
        counts.see(ended, f"a file that may not grow {own}", (status, out[-80:], errors))
        status, again, errors = scene.serve("--seen", 0 if not own else out.count(b"\n") - 1, *words)
        greeting, rest = again.split(b"\n", 1)
        all_there = (own or rest.startswith(out.split(b"\n", 1)[1])) and int(greeting.split()[2]) >= out.count(b"\n") - 1
        counts.see(status == 0 and all_there, f"what was answered before it is kept {own}", (greeting, errors))
    scene = Scene(program, folder)
    scene.front = ["unshare", "-rm", "sh", "-c", 'mount -t tmpfs -o size=16k none "$0" && exec "$@"', scene.folder]
    if not shutil.which("unshare") or subprocess.run([*scene.front, "true"], capture_output=True, check=False).returncode:
        counts.skip("a full disk", "no mounts of a process's own")
        return
    status, out, errors = scene.converse(bursts, told, *TWO)
    said = re.fullmatch(b"timers: %s: %s\n" % (os.fsencode(scene.journal), FULL), errors)
    counts.see(status == EXITS["FAILED"] and out.count(b"\n") > 10 and said, "a full disk", (status, out[-80:], errors))


# What a power cut may leave: of the calls of the system.
def noted(path):
    """Each call: its name, the file's inode, the offset, the result, the bytes."""
    with open(path, "rb") as file:
        while head := file.readline():
            call, *numbers, size = head.split()
            yield call.decode(), *map(int, numbers), file.read(int(size))


def changed(file, at, data):
    """Cut there, or with these bytes written there."""
    return file[:at] if data is None else file[:at].ljust(at, b"\0") + data + file[at + len(data):]


def torn(r, file, changes):
    """The file, if any part of each change is on the disk: its bytes are new, or old, or neither, and its length is between."""
    for at, data in changes:
        if data is None:
            file = file[:r.choice([at, r.randint(min(at, len(file)), len(file)), len(file)])]
            continue
        old = file[at:at + len(data)].ljust(len(data), b"\0")
        ways = r.choice([(0,), (1,), (0, 1), (0, 1, 2)])
        mixed = bytes([new, was, r.randrange(256)][r.choice(ways)] for new, was in zip(data, old))
        file = changed(file, at, mixed[:r.choice([len(data), r.randint(0, len(data))])])
    return file


def crashes(r, calls, folder, file):
    """After each call what was told so far, and files that a crash may leave, or none where the folder may not have one."""
    disk, changes, names, told = {}, {}, [None], b""
    for call, inode, at, result, data in calls:
        if call == "tell":
            told += data
        elif call == "name":
            names.append(inode)
        elif call == "sync" and inode == folder:
            for gone in names[:-1]:
                disk.pop(gone, None)  # another file may get this number
            names = names[-1:]
        elif result >= 0 and call in ("write", "cut", "sync"):
            if inode not in disk:
                disk[inode], changes[inode] = file if names == [None] else b"", []
                names = ([None, inode] if file == b"" else [inode]) if names == [None] else names
            if call == "sync":
                for change in changes[inode]:
                    disk[inode] = changed(disk[inode], *change)
                changes[inode] = []
            else:
                changes[inode].append((at, None if call == "cut" else data))
        for name in names:
            for _ in range(25):
                yield told, torn(r, disk[name], changes[name]) if name else None


def see_power(program, folder):
    """At no moment may a crash lose a line that was answered."""
    preloaded, r = calls_of_system(folder), random.Random(1)
    script, (stages, told), lines = [*BURSTS, MORE], stages_of(program), 0
    answers = {}
    for burst, (before, _) in zip([*script, b""], stages):
        answers[lines], lines = len(before), lines + burst.count(b"\n")

    def loses(said, file):
        """Why this file is not what the answers that were written need."""
        count = len(re.findall(rb"^(?!recovered|end ).*\n", said, re.M))
        groups, tail = read(file or b"")
        if not may_be_torn(tail) or is_foreign(file or b"") and count:
            return "refused"
        _, begins, *_ = (groups or [preamble()])[0].split(b"\n")
        kept = int(begins.split()[1]) + b"".join(groups[1:]).count(b"\n")
        return count > answers.get(kept, -1) and f"{count} answers were written, and {kept} lines are kept"

    def runs(name, *words, fails=0, file=b""):
        """The calls of a run, and how it ended."""
        scene = Scene(program, folder)
        if file:
            scene.write(file)
        log = os.path.join(folder, f"{name}.{fails}")
        given = {**os.environ, "LD_PRELOAD": preloaded, "JOURNAL_CALLS": log, "JOURNAL_FAILS": str(fails)}
        return scene, scene.converse(script, told, *TWO, *words, env=given), list(noted(log))

    half = file_of([preamble()]) + body(MORE)[:9]
    for name, own, file in [("new", [], b""), ("snapshots", ["--snapshot", "1"], b""), ("torn", [], half)]:
        scene, ended, calls = runs(name, *own, file=file)
        syncs = sum(call[0] == "sync" for call in calls)
        counts.see(ended[0] == 0 and syncs > 2 * len(script), f"{name}: calls of the system are noted", (ended, syncs))
        images = list(crashes(r, calls, os.stat(scene.folder).st_ino, file))
        wrong = [(why, said, image) for said, image in images if (why := loses(said, image))]
        counts.see(not wrong, f"{name}: {len(images)} crashes", f"{len(wrong)}, as {wrong[:2]}")

        def survives(fails):
            """It ends at a sync that fails: nothing is answered, and no more is asked of that file. What was answered is kept."""
            scene, (status, out, errors), calls = runs(name, *own, fails=fails, file=file)
            at = next(k for k, call in enumerate(calls) if call[0] == "sync" and call[3] < 0)
            later = [call for call in calls[at + 1:] if call[0] == "tell" or call[:2] == ("sync", calls[at][1])]
            one = re.fullmatch(b"timers: %s: [^\n]+\n" % os.fsencode(scene.journal), errors)
            after = scene.serve("--seen", max(0, out.count(b"\n") - 1), *TWO)
            holds = status == EXITS["FAILED" if out else "REFUSED"] and one and not later and after[0] == EXITS["DONE"]
            return None if holds else (fails, status, out, errors, later, after)

        wrong = list(filter(None, all_of(survives, range(1, syncs + 1))))
        counts.see(not wrong, f"{name}: each of {syncs} syncs fails", wrong[:2])
