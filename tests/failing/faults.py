"""Faults that no descriptor makes by itself: calls that tests/faults.c lets fail."""
import errno, os, shutil, subprocess
from failing.lists import replies
from failing.setting import LONG_REPLIES, REPLIES, ROOT, check, path, shell, tally, text, written


def faults():
    shim = path('faults.so')
    if not shutil.which('cc') or subprocess.run(['cc', '-shared', '-fPIC', '-o', shim, os.path.join(ROOT, 'tests/faults.c'), '-ldl']).returncode:
        tally['not tried'] += 14
        print('not tried: no C compiler for tests/faults.c')
        return

    def faulty(call, code, every, most=1 << 20, lines='$S', arguments='', descriptor=None):
        descriptor = {'read': 0, 'write': 1, 'open': -1}[call] if descriptor is None else descriptor
        words = dict(FAULT_CALL=call, FAULT_FD=str(descriptor), FAULT_ERRNO=str(code), FAULT_EVERY=str(every), FAULT_MOST=str(most))
        return shell('LD_PRELOAD=$F "$T" %s <"%s" >"$O"' % (arguments, lines), F=shim, **words) + (written(),)

    never = 1 << 40
    check('writes of 7 bytes at most', faulty('write', 0, never, 7), (0, '', REPLIES))
    check('every second write interrupted, 7 bytes', faulty('write', errno.EINTR, 2, 7), (0, '', REPLIES))
    check('every third write would block, 7 bytes', faulty('write', errno.EAGAIN, 3, 7), (0, '', REPLIES))
    check('every second write interrupted, long', faulty('write', errno.EINTR, 2, 4000, '$L'), (0, '', LONG_REPLIES))
    check('every second read interrupted, 5 bytes', faulty('read', errno.EINTR, 2, 5), (0, '', REPLIES))
    check('every third read would block, 5 bytes', faulty('read', errno.EAGAIN, 3, 5), (0, '', REPLIES))
    check('the fourth write fails', faulty('write', errno.EIO, 4, 7), (1, 'write: %s\n' % text(errno.EIO), REPLIES[:21]))
    check('the fourth write takes nothing', faulty('write', 0, 4, 7), (1, 'write: nothing was taken\n', REPLIES[:21]))
    names = dict(lines='$N', arguments='site full', descriptor=4)
    good = (0, '', replies(0, 8, 0))
    check('every second read of a list interrupted', faulty('read', errno.EINTR, 2, 999, **names), good)
    check('every third read of a list would block', faulty('read', errno.EAGAIN, 3, 999, **names), good)
    check('the second read of a list fails', faulty('read', errno.EIO, 2, 5, **names), (1, 'site: %s\n' % text(errno.EIO), b''))
    check('the fifth read of the lists fails', faulty('read', errno.EIO, 5, 999, **names), (1, 'full: %s\n' % text(errno.EIO), b''))
    check('every second open interrupted', faulty('open', errno.EINTR, 2, **names), good)
    check('the fourth read fails in a line', faulty('read', errno.EIO, 4, 11), (1, 'read: %s\n' % text(errno.EIO), b'ok\nok\nno\t1\t0\n'))
