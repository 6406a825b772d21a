"""Signals, links, arguments, the program without its script, and what ./tuner does before it runs the program."""
import errno, os, shutil, signal, subprocess, time
from failing.lists import replies
from failing.setting import LONG, LONG_REPLIES, PROGRAM, REPLIES, TUNER, check, content, fed, finish, path, program_of, shell, start, text, written


def signals():
    def busy():
        process = start(subprocess.PIPE, subprocess.PIPE)
        return process, fed(process, LONG), program_of(process)

    process, feeding, program = busy()
    time.sleep(0.1)
    os.kill(program, signal.SIGSTOP)
    time.sleep(0.2)
    os.kill(program, signal.SIGCONT)
    got = process.stdout.read()
    feeding.join()
    check('stopped and continued while it writes', finish(process, got), (0, '', LONG_REPLIES))
    for name in 'KILL', 'TERM', 'USR1':
        process, feeding, program = busy()
        os.kill(program, signal.Signals['SIG' + name])
        status, _ = finish(process)
        feeding.join()
        check('the program ended by SIG' + name, (status, ''), (128 + signal.Signals['SIG' + name], ''))
    for name in 'TERM', 'INT', 'HUP':
        process, feeding, program = busy()
        os.kill(process.pid, signal.Signals['SIG' + name])
        status, said = finish(process)
        feeding.join()
        check('./tuner ended by SIG%s, and the program with it' % name, (status, said, ended(program)), (128 + signal.Signals['SIG' + name], '', True))


def ended(program):
    """Whether the program has ended, or does within two seconds."""
    for _ in range(200):
        try:
            if content('/proc/%d/stat' % program).rsplit(b')', 1)[1].split()[0] == b'Z':
                return True
        except OSError:
            return True
        time.sleep(0.01)
    return False


def links_and_arguments():
    folder = path('a folder')
    os.mkdir(folder)
    os.symlink(TUNER, path('absolute'))
    os.symlink('../absolute', os.path.join(folder, 'relative'))
    check('through symbolic links', shell('"$R" <"$S" >"$O"', R=os.path.join(folder, 'relative')) + (written(),), (0, '', REPLIES))
    check('through a link on the path', shell('PATH=$P:$PATH; relative <"$S" >"$O"', P=folder) + (written(),), (0, '', REPLIES))
    check('through symbolic links, relative lists', shell('"$R" site house <"$N" >"$O"', R=os.path.join(folder, 'relative')) + (written(),), (0, '', replies(0, 0, 8)))


def without_the_script():
    check('the program alone, descriptor 3 open', shell('"$P" <"$S" >"$O" 3>"$E"; cat "$E" >&2', P=PROGRAM) + (written(),), (0, '', REPLIES))
    check('the program alone, descriptor 3 closed', shell('"$P" <"$S" >"$O" 3>&-', P=PROGRAM) + (written(),), (0, '', REPLIES))
    check('the program alone, two lists', shell('"$P" site house <"$N" >"$O"', P=PROGRAM) + (written(),), (0, '', replies(0, 0, 8)))
    check('the program alone, one list', shell('"$P" site <"$N" >"$O"', P=PROGRAM) + (written(),), (0, 'usage: tuner [SITE HOUSE]\n', b''))
    check('the program alone, a full device', shell('"$P" <"$S" >/dev/full', P=PROGRAM), (0, 'write: %s\n' % text(errno.ENOSPC)))


def proving():
    """The script with another program and another rt, in a folder of its own."""
    tree = path('tree')
    os.makedirs(os.path.join(tree, 'crates/tuner'))
    path('tree/crates.txt', b'')
    shutil.copy(TUNER, tree)
    os.mkdir(path('bin'))
    rt = path('bin/rt', b'#!/bin/sh\necho "rt $*"\n[ -e ../../good ] || exit 1\nmkdir -p out && cp ../../program out/tuner\n')
    program = path('tree/program', b'#!/bin/sh\ncat\nprintf 0 >&3\n')
    os.chmod(rt, 0o755)
    os.chmod(program, 0o755)
    run = 'PATH=$B:$PATH; printf in | ./tree/tuner >"$O"'
    proves = 'tuner: proving and building the program, which takes some minutes\n'
    check('not proved', shell(run, B=path('bin')), (1, proves + 'rt run\n'))
    path('tree/good', b'')
    check('proved and built first, input kept', shell(run, B=path('bin')) + (written(),), (0, proves, b'in'))
    check('and not again', shell(run, B=path('bin')) + (written(),), (0, '', b'in'))
    time.sleep(0.02)
    path('tree/crates/changed', b'')
    check('again after a change', shell(run, B=path('bin')), (0, proves))
    path('tree/target/bin/tuner', b'#!/bin/sh\nprintf "<%s>" "$@"\nprintf 0 >&3\n')
    check('arguments are handed on', shell('./tree/tuner "a b" "" "*" \'$T\' >"$O"') + (written(),), (0, '', b'<--status-fd=3><a b><><*><$T>'))
    path('tree/target/bin/tuner', b'#!/bin/sh\nexit 0\n')
    check('a program that does not say how it ended', shell(run, B=path('bin')), (1, 'tuner: the program did not say how it ended\n'))
