"""What the scripts share: running a program, and the rows of a table of n and 2n. No script by itself.

A program starts with the memory that its parent ever held counted as its own, and the scripts hold much. So each program is
started by a small interpreter that runs this file: a peak is never reported below that one's, about 10 MB.
"""
import contextlib
import os
import subprocess
import sys
import tempfile
import time


def run(words, begin=None):
    """The seconds of one run, and the most memory that it held, in bytes.

    Its output has to begin with `begin`; where that is None the output isn't read.
    """
    told, tell = os.pipe()
    starter = [sys.executable, '-E', '-S', os.path.abspath(__file__), str(tell)]
    out = subprocess.DEVNULL if begin is None else subprocess.PIPE
    with subprocess.Popen(starter + words, stdout=out, pass_fds=[tell]) as child:
        os.close(tell)
        text = b'' if begin is None else child.stdout.read()
    with open(told) as lines:
        if child.returncode != 0 or not text.startswith(begin or b''):
            sys.exit('%s: status %d, %r' % (' '.join(words), child.returncode, text[:1000]))
        took, peak = lines.read().split()
    return float(took), int(peak)


def best(words, begin=None):
    """The least seconds of three runs, and the most memory that one held, in bytes."""
    runs = [run(words, begin) for _ in range(3)]
    return min(took for took, _ in runs), max(peak for _, peak in runs)


def best_of_both(words, before, begin=None):
    """What `best` gives for the words, and for the same words with the program `before`, run in turn."""
    runs = [(run(words, begin), run([before] + words[1:], begin)) for _ in range(5)]
    return [(min(took for took, _ in of), max(peak for _, peak in of)) for of in zip(*runs)]


def take_option(name):
    """The word after the option, which both leave the script's words; None where it isn't there."""
    if name not in sys.argv:
        return None
    at = sys.argv.index(name)
    word = sys.argv[at + 1] if at + 1 < len(sys.argv) else sys.exit('%s needs a word' % name)
    del sys.argv[at:at + 2]
    return word


@contextlib.contextmanager
def program_and_folder(usage):
    """The program that the script was given, and a new folder for its files, in the directory that it was given if any."""
    if len(sys.argv) < 2:
        sys.exit(usage)
    with tempfile.TemporaryDirectory(dir=sys.argv[2] if len(sys.argv) > 2 else None) as folder:
        yield os.path.abspath(sys.argv[1]), folder


def print_head(what):
    print('%-22s %10s %9s %9s %6s %12s' % (what, 'bytes', 'n', '2n', 'ratio', 'peak/size'))


def print_row(name, size, once, twice):
    """`once` and `twice` are what `best` gave for n and 2n, and `size` is the bytes of the files of 2n."""
    print('%-22s %10d %8.3fs %8.3fs %6.2f %12.1f' % (name, size, once[0], twice[0], twice[0] / once[0], twice[1] / size))


def print_both(name, now, before):
    """What `best` gave for a program and for the one of before."""
    print('%-22s %9.3fs %9.3fs %6.2f %11d %11d %6.2f' % (
        name, now[0], before[0], now[0] / before[0], now[1], before[1], now[1] / before[1]))


def start():
    """Runs the words after the number of a pipe, writes the seconds and the peak to the pipe, and ends with the status."""
    tell = int(sys.argv[1])
    os.set_inheritable(tell, False)
    begin = time.perf_counter()
    child = os.posix_spawnp(sys.argv[2], sys.argv[2:], os.environ)
    _, status, usage = os.wait4(child, 0)
    took = time.perf_counter() - begin
    os.write(tell, b'%f %d' % (took, usage.ru_maxrss * 1024))
    sys.exit(os.waitstatus_to_exitcode(status))


if __name__ == '__main__':
    start()
