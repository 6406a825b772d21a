"""Inputs and outputs: good ones, and those that fail, are closed or would block."""
import errno, os, subprocess, time
from failing.setting import LONG, LONG_REPLIES, REPLIES, SHORT, check, content, fed, finish, program_of, shell, start, text, written


def plain():
    check('a session, and a refused line', shell('"$T" <"$S" >"$O"') + (written(),), (0, '', REPLIES))
    check('a long input', shell('"$T" <"$L" >"$O"') + (written(),), (0, '', LONG_REPLIES))
    check('an empty input', shell('"$T" </dev/null >"$O"') + (written(),), (0, '', b''))
    check('an unfinished line', shell('printf turn | "$T" >"$O"') + (written(),), (0, '', b'no\t1\t1\n'))


def outputs():
    told = 'write: %s\n'
    check('a full device', shell('"$T" <"$S" >/dev/full'), (1, told % text(errno.ENOSPC)))
    status, said = shell('ulimit -f 64; "$T" <"$L" >"$O"')
    start_only = 0 < len(written()) < len(LONG_REPLIES) and LONG_REPLIES.startswith(written())
    check('a limit on the size of a file', (status, said, start_only), (1, told % text(errno.EFBIG), True))
    check('a closed output', shell('"$T" <"$S" >&-'), (1, told % text(errno.EBADF)))
    check('a read-only output', shell('"$T" <"$S" 1</dev/null'), (1, told % text(errno.EBADF)))
    check('a closed output, and nothing to reply', shell('"$T" </dev/null >&-'), (0, ''))
    head = '{ "$T" <"$L"; echo $? >"$E"; } | head -n 1 >"$O"; exit "$(cat "$E")"'
    check('a closed pipe', shell(head) + (written(),), (141, '', b'ok\n'))
    check('a closed pipe, SIGPIPE ignored', shell("trap '' PIPE; " + head) + (written(),), (141, '', b'ok\n'))


def inputs():
    told = 'read: %s\n'
    check('a directory for the input', shell('"$T" </ >"$O"') + (written(),), (1, told % text(errno.EISDIR), b''))
    check('a closed input', shell('"$T" <&- >"$O"') + (written(),), (1, told % text(errno.EBADF), b''))
    check('a write-only input', shell('"$T" 0>"$O.in" >"$O"') + (written(),), (1, told % text(errno.EBADF), b''))


def seconds(program):
    """The processor time that the program has used."""
    fields = content('/proc/%d/stat' % program).rsplit(b')', 1)[1].split()
    return (int(fields[11]) + int(fields[12])) / os.sysconf('SC_CLK_TCK')


def non_blocking():
    reader, writer = os.pipe()
    os.set_blocking(writer, False)
    process = start(subprocess.PIPE, writer)
    os.close(writer)
    feeding, program, got, parts = fed(process, LONG), program_of(process), b'', 0
    time.sleep(0.5)
    before = seconds(program)
    time.sleep(1)
    spent = seconds(program) - before
    while True:
        part = os.read(reader, 65536)
        if not part:
            break
        got, parts = got + part, parts + 1
        if parts < 10:
            time.sleep(0.02)
    feeding.join()
    os.close(reader)
    check('a non-blocking output, read slowly', finish(process, got), (0, '', LONG_REPLIES))
    check('and it waits without spinning', (0, '', spent < 0.08), (0, '', True))
    reader, writer = os.pipe()
    os.set_blocking(reader, False)
    process = start(reader, subprocess.PIPE)
    os.close(reader)
    for line in SHORT.splitlines(True):
        time.sleep(0.05)
        os.write(writer, line)
    os.close(writer)
    check('a non-blocking input, written slowly', finish(process, process.stdout.read()), (0, '', REPLIES))
