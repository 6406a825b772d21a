"""The two lists of names: found, missing, damaged, too long, or not to be read."""
import errno, os
from failing.setting import check, path, shell, text, written

SITE, HOUSE = b'CYCLES\tG\t3C\t00\n', b'INSTR\tG\tC0\t00\n'
HERE, ELSEWHERE = b'INSTR\tG\t3C\t01\n', b'INSTR\tS\t52\t00\n'
FULL = b''.join(b'N%06d\tG\t3C\t00\n' % i for i in range(4095)) + b'LAST_ON\tG\t3C\t00\n'
NAMED = b'open\tG\t15\t0\t0\t-\nnamed\t1\tCYCLES\t15\nnamed\t2\tINSTR\t15\nnamed\t3\tLAST_ON\t15\n'
AT_FAULT = {1: 0, 7: 0, 8: 2}  # the field of a request by name that is refused with this number


def write_lists():
    """The files of the cases: lists, and the lines that name events."""
    path('named', NAMED)
    os.mkdir(path('lists'))
    rows = [('site', SITE), ('a site', SITE), ('house', HOUSE), ('*', HOUSE), ('lists/site', HOUSE), ('here', HERE), ('elsewhere', ELSEWHERE),
            ('damaged', SITE[:-1]), ('empty', b''), ('full', FULL), ('beyond', FULL + b'\n')]
    for name, holding in rows:
        path(name, holding)


def replies(*numbers):
    """The replies to the lines that name events, by the refusal of each, or 0."""
    return b'ok\n' + b''.join(b'no\t%d\t%d\n' % (number, AT_FAULT[number]) if number else b'ok\n' for number in numbers)


def listed(arguments, expected, name, **words):
    """Runs on the lines that name events, in the test's own folder, with these arguments."""
    check(name, shell('"$T" %s <"$N" >"$O"' % arguments, **words) + (written(),), expected)


def good_and_damaged():
    both, none = (0, '', replies(0, 0, 8)), (0, '', replies(8, 8, 8))
    listed('', none, 'no lists')
    listed('site house', both, 'two lists')
    listed('"$A" "$B"', both, 'two lists by their full paths', A=path('site'), B=path('house'))
    listed('"a site" "*"', both, 'blanks and signs of the shell in the paths')
    listed('here elsewhere', (0, '', replies(8, 0, 8)), 'a name in both lists: the first is the site')
    listed('elsewhere here', (0, '', replies(8, 7, 8)), 'the same lists exchanged')
    listed('damaged house', (0, '', replies(1, 1, 1)), 'a damaged list for the site')
    listed('site damaged', (0, '', replies(1, 1, 1)), 'a damaged list for the house')
    listed('empty house', (0, '', replies(8, 0, 8)), 'an empty list for the site')
    listed('site /dev/null', (0, '', replies(0, 8, 8)), 'an empty device for the house')
    check('relative paths from another folder', shell('cd lists && "$T" site ../house <"$N" >"$O"') + (written(),), (0, '', replies(8, 0, 8)))


def unread():
    usage = (2, 'usage: tuner [SITE HOUSE]\n', b'')
    listed('site', usage, 'one argument')
    listed('""', usage, 'one empty argument')
    listed('site house site', usage, 'three arguments')
    listed('--status-fd=3 site house', usage, 'a third argument that asks for the status')
    told = '%s: %s\n'
    listed('missing house', (1, told % ('missing', text(errno.ENOENT)), b''), 'a missing file for the site')
    listed('site missing', (1, told % ('missing', text(errno.ENOENT)), b''), 'a missing file for the house')
    listed('site ""', (1, told % ('', text(errno.ENOENT)), b''), 'an empty path')
    listed('site lists', (1, told % ('lists', text(errno.EISDIR)), b''), 'a directory for a list')
    listed('site/site house', (1, told % ('site/site', text(errno.ENOTDIR)), b''), 'a path below a file')
    listed('"$A" house', (1, told % ('a' * 4096, text(errno.ENAMETOOLONG)), b''), 'a path of 4,096 bytes', A='a' * 4096)
    listed('"$A" house', (1, told % ('a' * 4096, text(errno.ENAMETOOLONG)), b''), 'a path of 5,000 bytes', A='a' * 5000)


def lengths():
    long = '%s: longer than 65536 bytes\n'
    listed('full house', (0, '', replies(8, 0, 0)), 'a list of 65,536 bytes for the site')
    listed('site full', (0, '', replies(0, 8, 0)), 'a list of 65,536 bytes for the house')
    listed('beyond house', (1, long % 'beyond', b''), 'a list of 65,537 bytes for the site')
    listed('site beyond', (1, long % 'beyond', b''), 'a list of 65,537 bytes for the house')
    listed('site /dev/zero', (1, long % '/dev/zero', b''), 'a list without an end')


def beside_streams():
    check('a closed input, and two lists', shell('"$T" site house <&- >"$O"') + (written(),), (1, 'read: %s\n' % text(errno.EBADF), b''))
    check('a closed output, and two lists', shell('"$T" site house <"$N" >&-'), (1, 'write: %s\n' % text(errno.EBADF)))
    os.mkfifo(path('slow'))
    slowly = '{ head -c 5 full; sleep 0.2; tail -c +6 full; } >slow & "$T" site slow <"$N" >"$O"; status=$?; wait; exit $status'
    check('a list from a pipe, fed slowly', shell(slowly) + (written(),), (0, '', replies(0, 8, 0)))
