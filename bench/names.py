#!/usr/bin/env python3
"""Time of reading and writing a name's text for n and 2n bytes, in Rust's spelling and in CodeView's.

    bench/names.py [DIRECTORY]

Builds a small program over the crate type_names in a folder of its own, outside the repository, and runs it on texts of about
1,000 bytes and of 64 KiB, and on texts twice as long. Prints for each row the time of one reading or writing, the best of three
runs without the start of the program, and the ratio of the second time to the first. Linear time has a ratio near 2.
"""
import os
import sys
import tempfile

import driver
import measure

DRIVER = '''//! Reads a name's text, or writes its name, so many times.
#![tactic(auto)]

use rv_io::{Buf, Inputs, List, Memory, RealInputs};
use std::alloc::Global;
use std::env;
use std::process::ExitCode;
use std::rt::Env;
use type_names::{Name, NameErr, cv_spelling, read_cv, read_rust, rust_spelling};

/// What to do, how often, and the file of the text.
#[derive(Drop)]
struct Task {
    writes: bool,
    is_cv: bool,
    count: u32,
    file: String,
}

fn main(rt: HostRuntime) -> ExitCode {
    let mut inputs = RealInputs::new(&rt);
    let mut text = Buf::new(rt.alloc());
    let Some(task) = task_of(&rt) else { return ExitCode::from(2) };
    if inputs.fetch(task.file.as_str(), 1_000_000, &mut text).is_err() {
        return ExitCode::from(3);
    }
    match repeat(rt.alloc(), &task, text.as_bytes()) {
        Ok(true) => ExitCode::from(0),
        Ok(false) => ExitCode::from(1),
        Err(_) => ExitCode::from(5),
    }
}

fn task_of<R: Env + AllocGlobal>(rt: &R) -> Option<Task> {
    let mut args = env::args(rt).ok()?.skip(1);
    let writes = args.next()?.as_str() == "write";
    let is_cv = args.next()?.as_str() == "cv";
    let count = args.next()?.as_str().parse::<u32>().ok()?;
    let file = args.next()?;
    Some(Task { writes, is_cv, count, file })
}

fn read(alloc: Global, task: &Task, text: &[u8]) -> Result<Name, NameErr> {
    if task.is_cv { read_cv(alloc, text) } else { read_rust(alloc, text) }
}

fn write(task: &Task, name: &Name, out: &mut Buf) -> Result<(), Memory> {
    if task.is_cv { cv_spelling(name, out) } else { rust_spelling(name, out) }
}

/// Whether each reading gave a name, or each writing its text.
fn repeat(alloc: Global, task: &Task, text: &[u8]) -> Result<bool, NameErr> {
    let name = read(alloc, task, text)?;
    let mut all = true;
    for _ in 0..task.count {
        if task.writes {
            let mut out = Buf::new(alloc);
            write(task, &name, &mut out)?;
            all = all && out.as_bytes().len() == text.len();
        } else {
            all = all && read(alloc, task, text).is_ok();
        }
    }
    Ok(all)
}
'''


def build(folder):
    """The program, over a text of its own."""
    text = os.path.join(folder, 'text')
    with open(text, 'w') as out:
        out.write('a')
    return driver.build(folder, 'name_times', DRIVER, ['rv_io', 'type_names'], ['read', 'rust', '1', text])


def args(n, is_cv):
    """One segment with many args."""
    item = 'core::option::Option<u8>'
    joint, end = (',', ' >') if is_cv else (', ', '>')
    return 'a<' + joint.join([item] * max(1, n // (len(item) + len(joint)))) + end


def path(n, is_cv):
    """One path of many segments."""
    return '::'.join(['segment'] * max(1, n // 9))


def seconds(program, folder, action, spelling, text, count):
    file = os.path.join(folder, 'text')
    with open(file, 'w') as out:
        out.write(text)
    start, _ = measure.best([program, action, spelling, '0', file])
    took, _ = measure.best([program, action, spelling, str(count), file])
    return (took - start) / count


def main():
    with tempfile.TemporaryDirectory(dir=sys.argv[1] if len(sys.argv) > 1 else None) as folder:
        program = build(folder)
        for shape in [args, path]:
            for n, count in [(1000, 20000), (65536, 300)]:
                for spelling in ['rust', 'cv']:
                    for action in ['read', 'write']:
                        small, large = shape(n, spelling == 'cv'), shape(2 * n, spelling == 'cv')
                        a = seconds(program, folder, action, spelling, small, count)
                        b = seconds(program, folder, action, spelling, large, count // 2)
                        print('%-6s %-5s %-5s %7d bytes %9.1f us  %7d bytes %9.1f us   ratio %.2f' % (
                            shape.__name__, spelling, action, len(small), a * 1e6, len(large), b * 1e6, b / a))


if __name__ == '__main__':
    main()
