#!/usr/bin/env python3
"""Time and peak memory of reading DWARF's location lists and range lists of n and 2n entries.

    bench/lists.py [DIRECTORY]

No command of rdbg reads DWARF yet. So this builds a small program over the crate dwarf_lists in a folder of its own, outside the
repository, runs it on lists of 500,000 and 1,000,000 entries, and prints for each row the best of three times for n and 2n, their ratio,
and the peak memory as a multiple of the list's size. Each entry has an offset pair, and in a location list an expression of two bytes.
Linear time has a ratio near 2.
"""
import os
import sys
import tempfile

import driver
import measure
from tables import leb

CRATES = ['rv_io', 'readers', 'rv_bytes', 'snapshot_file', 'expr_eval', 'names', 'rust_names', 'cv_names', 'type_names', 'layout_set',
          'dwarf_list_entries', 'dwarf_lists']

DRIVER = '''//! Reads a location list or a range list, and counts what it says.
#![tactic(auto)]

use dwarf_lists::{Addrs, read_location_list, read_ranges};
use rv_io::{Buf, Inputs, RealInputs};
use std::env;
use std::process::ExitCode;
use std::rt::Env;

/// What to read, and from which file.
#[derive(Drop)]
struct Task {
    is_range: bool,
    file: String,
}

fn main(rt: HostRuntime) -> ExitCode {
    let mut inputs = RealInputs::new(&rt);
    let mut file = Buf::new(rt.alloc());
    let Some(task) = task_of(&rt) else { return ExitCode::from(2) };
    if inputs.fetch(task.file.as_str(), 100_000_000, &mut file).is_err() {
        return ExitCode::from(3);
    }
    let addrs = Addrs { section: b"", base: None };
    let section = file.as_bytes();
    let count = if task.is_range {
        let Ok(found) = read_ranges(rt.alloc(), section, 0, 0, &addrs) else { return ExitCode::from(1) };
        found.as_slice().len()
    } else {
        let Ok(found) = read_location_list(rt.alloc(), section, 0, 0, &addrs) else { return ExitCode::from(1) };
        found.as_slice().len()
    };
    if count > 0 { ExitCode::from(0) } else { ExitCode::from(4) }
}

fn task_of<R: Env + AllocGlobal>(rt: &R) -> Option<Task> {
    let mut args = env::args(rt).ok()?.skip(1);
    let is_range = args.next()?.as_str() == "ranges";
    let file = args.next()?;
    Some(Task { is_range, file })
}
'''


def write_list(path, count, expression):
    """So many entries of an offset pair, each with these bytes after it, and the end of the list."""
    with open(path, 'wb') as out:
        for i in range(count):
            out.write(b'\4' + leb(16 * i) + leb(16 * i + 16) + expression)
        out.write(b'\0')


def main():
    with tempfile.TemporaryDirectory(dir=sys.argv[1] if len(sys.argv) > 1 else None) as folder:
        paths = [os.path.join(folder, name) for name in ('once', 'twice')]
        write_list(paths[0], 1, b'')
        program = driver.build(folder, 'lists', DRIVER, CRATES, ['ranges', paths[0]])
        measure.print_head('what')
        for what, expression in [('ranges', b''), ('locations', b'\2\x76\x78')]:
            for path, n in zip(paths, [500000, 1000000]):
                write_list(path, n, expression)
            once, twice = [measure.best([program, what, path], b'') for path in paths]
            measure.print_row(what, os.path.getsize(paths[1]), once, twice)


if __name__ == '__main__':
    main()
