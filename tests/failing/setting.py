"""What the cases share: a folder of their own with inputs and lists, ways to run ./tuner, and the tally."""
import os, subprocess, sys, tempfile, threading, time

ROOT = os.path.dirname(os.path.dirname(os.path.dirname(os.path.realpath(__file__))))
ROOM = tempfile.mkdtemp(prefix='failures.')
TUNER, PROGRAM = os.path.join(ROOT, 'tuner'), os.path.join(ROOT, 'target/bin/tuner')
tally = {'passed': 0, 'failed': 0, 'not tried': 0}


def path(name, holding=None):
    """A path in the test's own folder, with a file there that holds these bytes."""
    full = os.path.join(ROOM, name)
    if holding is not None:
        with open(full, 'wb') as file:
            file.write(holding)
    return full


def content(name):
    with open(name, 'rb') as file:
        return file.read()


# The stored input of the program up to its first name, and a line that is refused; and the same with many such lines behind it.
REFUSED, LINES = b'no\t1\t0\n', 200000
_stored, _stored_replies = (content(os.path.join(ROOT, 'crates/tuner', name)) for name in ('stdin', 'stdout'))
SHORT = _stored[:_stored.index(b'named')] + b'nonsense\n'
REPLIES = b''.join(_stored_replies.splitlines(True)[:-_stored.count(b'named')]) + REFUSED
LONG, LONG_REPLIES = SHORT + b'x\n' * LINES, REPLIES + REFUSED * LINES


def text(code):
    return os.strerror(code)


def check(name, found, expected):
    good = found == expected
    tally['passed' if good else 'failed'] += 1
    status, told = found[0], found[1].strip() or '-'
    print('%-6s %-46s %5s  %s' % ('ok' if good else 'FAILED', name, status, told if len(told) < 200 else '..' + told[-60:]))
    if not good:
        print('       expected', [x if len(str(x)) < 200 else '..' for x in expected], 'found', [x if len(str(x)) < 200 else '..' for x in found])


def shell(command, **words):
    """A command of the shell: its status and standard error. $T is ./tuner, $S, $L and $N the short
    input, the long one and one that names events, $O a file."""
    known = dict(os.environ, T=TUNER, S=path('short'), L=path('long'), N=path('named'), O=path('out'), E=path('status'), **words)
    done = subprocess.run(['sh', '-c', command], env=known, cwd=ROOM, stdin=subprocess.DEVNULL, stdout=subprocess.DEVNULL, stderr=subprocess.PIPE)
    return done.returncode, done.stderr.decode()


def written():
    return content(path('out'))


def start(stdin, stdout, *arguments):
    return subprocess.Popen([TUNER, *arguments], stdin=stdin, stdout=stdout, stderr=subprocess.PIPE)


def fed(process, lines):
    """Writes the lines to the process beside the test."""
    def feed():
        try:
            process.stdin.write(lines)
            process.stdin.close()
        except BrokenPipeError:
            pass
    thread = threading.Thread(target=feed)
    thread.start()
    return thread


def program_of(process):
    """The id of the program that the script runs."""
    for _ in range(500):
        for child in content('/proc/%d/task/%d/children' % (process.pid, process.pid)).decode().split():
            try:
                if os.path.samefile('/proc/%s/exe' % child, PROGRAM):
                    return int(child)
            except OSError:
                pass
        time.sleep(0.01)
    sys.exit('tests/failures: the program was not started')


def finish(process, got=None):
    told = process.stderr.read().decode()
    status = process.wait()
    return (status, told) if got is None else (status, told, got)
