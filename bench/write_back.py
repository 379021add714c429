#!/usr/bin/env python3
"""Time and peak memory of reading layout files of n and 2n bytes, up to nearly 16 MiB, and of reading and writing them back.

    bench/write_back.py [DIRECTORY]

No command of rdbg writes layouts yet. So this builds a small program over the crate layout_file in a folder of its own, outside the
repository, runs it on the layouts of layouts.py, and prints for each row the best of three times for n and 2n, their ratio, and the
peak memory as a multiple of the file's size. Linear time has a ratio near 2.
"""
import os
import sys
import tempfile

import driver
import layouts
import measure

BELOW = ['rv_io', 'readers', 'snapshot_file', 'expr_eval', 'names', 'rust_names', 'cv_names', 'type_names', 'layout_set', 'layout_words',
         'layout_lines', 'layout_rules', 'layout_builder', 'layout_writer', 'layout_reader', 'layout_file']

DRIVER = '''//! Reads a layout file, and writes it back where it is asked to.
#![tactic(auto)]

use layout_file::{read, write};
use rv_io::{Buf, Inputs, RealInputs};
use std::env;
use std::process::ExitCode;
use std::rt::Env;

/// What to do, and with which file.
#[derive(Drop)]
struct Task {
    writes: bool,
    file: String,
}

fn main(rt: HostRuntime) -> ExitCode {
    let mut inputs = RealInputs::new(&rt);
    let mut file = Buf::new(rt.alloc());
    let Some(task) = task_of(&rt) else { return ExitCode::from(2) };
    if inputs.fetch(task.file.as_str(), 20_000_000, &mut file).is_err() {
        return ExitCode::from(3);
    }
    let Ok(set) = read(rt.alloc(), file.as_bytes()) else { return ExitCode::from(1) };
    if !task.writes {
        return ExitCode::from(0);
    }
    let mut out = Buf::new(rt.alloc());
    if write(&set, &mut out).is_err() {
        return ExitCode::from(5);
    }
    if out.as_bytes() == file.as_bytes() {
        ExitCode::from(0)
    } else {
        ExitCode::from(4)
    }
}

fn task_of<R: Env + AllocGlobal>(rt: &R) -> Option<Task> {
    let mut args = env::args(rt).ok()?.skip(1);
    let writes = args.next()?.as_str() == "write";
    let file = args.next()?;
    Some(Task { writes, file })
}
'''


def build(folder):
    """The program, over a layout of nothing."""
    file = os.path.join(folder, 'file')
    with open(file, 'w') as out:
        out.write('rdbg-layout 1\ntarget 8\n')
    return driver.build(folder, 'write_back', DRIVER, BELOW, ['write', file])


def main():
    with tempfile.TemporaryDirectory(dir=sys.argv[1] if len(sys.argv) > 1 else None) as folder:
        program = build(folder)
        paths = [os.path.join(folder, name) for name in ('once', 'twice')]
        layouts.write_layout(paths[0], 9500, 2, 9500, 160)
        layouts.write_layout(paths[1], 19000, 2, 19000, 160)
        measure.print_head('what')
        for what in ('read', 'write'):
            once, twice = [measure.best([program, what, path], b'') for path in paths]
            measure.print_row(what, os.path.getsize(paths[1]), once, twice)


if __name__ == '__main__':
    main()
