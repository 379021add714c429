#!/usr/bin/env python3
"""What the gate costs: minutes of one processor, by crate, and seconds of each must-fail edit.

    bench/gate.py [COMMAND ..]        from the top of the repository; without a command it is `rt ci --anew`

The command runs as it is, and what it says goes through. Meanwhile each process below it is looked at twice a second, and its time goes to
the crate that it works on: to the proof, to the tests or to the must-fail edits. What ran between two looks is in the last row alone, which
is the whole time of the command, as the system counts it. `rt ci NAME --anew` measures a crate and those below it.

A try of an edit runs over a copy of the crate with the edit made, so the copy tells which edit it is. A copy without one is the check of the
crate as it stands: before its edits, which proves all of it a second time and keeps what was proved for them, and after them.
"""
import os
import subprocess
import sys
import threading
import time

EVERY = 0.5
TICKS = os.sysconf('SC_CLK_TCK')
KINDS = ('proof', 'tests', 'edits')
PARTS = ('src', 'specs', 'proofs')
# what stands for an edit where there is none in the copy
BEFORE, AFTER = '(the crate as it stands, before)', '(the crate as it stands, after)'


class Process:
    """A process as the system shows it: its parent, and the ticks that it has used itself."""

    def __init__(self, pid):
        with open('/proc/%s/stat' % pid) as file:
            # the second field, the name, is in parentheses and may hold spaces
            fields = file.read().rpartition(')')[2].split()
        self.parent, self.ticks, self.start = int(fields[1]), int(fields[11]) + int(fields[12]), fields[19]


def processes():
    """All processes, by their numbers."""
    found = {}
    for pid in filter(str.isdigit, os.listdir('/proc')):
        try:
            found[int(pid)] = Process(pid)
        except OSError:
            pass  # it has ended
    return found


def work_of(pid):
    """The crate that a process names and the kind of its work, or None."""
    try:
        with open('/proc/%d/cmdline' % pid, 'rb') as file:
            words = file.read().decode(errors='replace').split('\0')
        if '--crate-name' not in words:
            return None
        crate = words[words.index('--crate-name') + 1]
        copy = os.readlink('/proc/%d/cwd' % pid)
        if 'rt-edit' in copy:
            return crate, 'edits', edit_in('crates/%s' % crate, copy)
        return crate, 'tests' if '--test' in words else 'proof', None
    except (OSError, ValueError):
        return None  # it has ended, or its copy of the crate is gone


def text_of(path):
    with open(path, encoding='utf-8') as file:
        return file.read()


def edit_in(folder, copy):
    """The name of the edit that the copy of a crate was made with."""
    for name in edits_in(folder):
        path, text = None, ''
        for line in text_of(os.path.join(folder, 'must-fail', name)).split('\n'):
            if line.startswith('file: ') and path is None:
                path = line[len('file: '):].strip()
                text = text_of(os.path.join(folder, path))
            elif line.startswith('file: '):
                break  # the first file tells it
            elif line.startswith('old: '):
                old = line[len('old: '):]
            elif line.startswith('new:'):
                text = text.replace(old, line[len('new:'):].removeprefix(' '))
        if path and text == text_of(os.path.join(copy, path)):
            return name
    return BEFORE


def edits_in(folder):
    try:
        return sorted(name for name in os.listdir(os.path.join(folder, 'must-fail')) if name.endswith('.edit'))
    except OSError:
        return []


class Gate:
    """The ticks of each process below one, and what each works on."""

    def __init__(self, top):
        self.top, self.ticks, self.works = top, {}, {}

    def look(self):
        all_now = processes()
        for pid, process in all_now.items():
            line = self.line_of(pid, all_now)
            if line is None:
                continue
            key = pid, process.start
            self.ticks[key] = process.ticks
            if not self.works.get(key):
                self.works[key] = self.in_order(next(filter(None, map(work_of, line)), None))

    def in_order(self, work):
        """The same work, where a check of the crate as it stands comes after edits of that crate if some were seen."""
        if work and work[2] == BEFORE and any(it and it[0] == work[0] and it[2] not in (None, BEFORE, AFTER) for it in self.works.values()):
            return *work[:2], AFTER
        return work

    def line_of(self, pid, all_now):
        """The process and its ancestors below the top one, or None where that is none of them."""
        line = []
        while pid in all_now:
            line.append(pid)
            if pid == self.top:
                return line
            pid = all_now[pid].parent
        return None

    def seconds(self):
        """The seconds of each crate, kind and edit."""
        found = {}
        for key, ticks in self.ticks.items():
            if self.works[key]:
                found[self.works[key]] = found.get(self.works[key], 0) + ticks / TICKS
        return found


def lines_of(crate):
    """How many lines of code, definitions and proofs a crate has."""
    count = 0
    for part in PARTS:
        for folder, _, files in os.walk('crates/%s/%s' % (crate, part)):
            for name in files:
                if name.endswith(('.rt', '.antt')):
                    with open(os.path.join(folder, name), 'rb') as file:
                        count += sum(1 for _ in file)
    return count


def print_table(seconds, whole, wall):
    """A table in Markdown, the most costly crate first."""
    minutes = {}
    for (crate, kind, _), spent in seconds.items():
        minutes[crate, kind] = minutes.get((crate, kind), 0) + spent / 60
    print('| Crate | Lines | Edits | Proof | Tests | Edits tried | Minutes | per 1,000 lines |')
    print('|---|---|---|---|---|---|---|---|')
    by_crate = {crate: [minutes.get((crate, kind), 0) for kind in KINDS] for crate, _ in minutes}
    for crate, parts in sorted(by_crate.items(), key=lambda item: -sum(item[1])):
        lines = lines_of(crate)
        per = '%.1f' % (sum(parts) * 1000 / lines) if lines else ''
        print('| %s | %d | %d | %s | %.1f | %s |' % (crate, lines, len(edits_in('crates/' + crate)), ' | '.join('%.1f' % it for it in parts), sum(parts), per))
    sums = [sum(parts[kind] for parts in by_crate.values()) for kind in range(len(KINDS))]
    print('| all crates | | | %s | %.1f | |' % (' | '.join('%.1f' % it for it in sums), sum(sums)))
    print('\nThe command took %.1f minutes of one processor, in %.1f minutes.' % (whole, wall))


def print_edits(seconds):
    """What each must-fail edit cost, and the checks of the crate around them, the dearest first."""
    print('\n| Crate | Must-fail edit | Seconds |')
    print('|---|---|---|')
    tried = [(spent, crate, edit) for (crate, kind, edit), spent in seconds.items() if kind == 'edits']
    for spent, crate, edit in sorted(tried, reverse=True):
        print('| %s | %s | %.0f |' % (crate, edit, spent))


def main():
    words = sys.argv[1:] or ['rt', 'ci', '--anew']
    start = time.monotonic()
    command = subprocess.Popen(words)
    gate, ended = Gate(command.pid), threading.Event()

    def watch():
        while not ended.wait(EVERY):
            gate.look()

    watcher = threading.Thread(target=watch)
    watcher.start()
    _, status, used = os.wait4(command.pid, 0)
    ended.set()
    watcher.join()
    print_table(gate.seconds(), (used.ru_utime + used.ru_stime) / 60, (time.monotonic() - start) / 60)
    print_edits(gate.seconds())
    sys.exit(os.waitstatus_to_exitcode(status))


if __name__ == '__main__':
    main()
