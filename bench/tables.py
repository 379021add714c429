#!/usr/bin/env python3
"""Time and peak memory of reading DWARF's abbreviation tables of n and 2n declarations, and of finding each declaration by its code.

    bench/tables.py [DIRECTORY]

No command of rdbg reads DWARF yet. So this builds a small program over the crate dwarf_abbrev in a folder of its own, outside the
repository, runs it on tables of 200,000 and 400,000 declarations, and prints for each row the best of three times for n and 2n, their
ratio, and the peak memory as a multiple of the table's size. `rising` has the codes 1 to n, `apart` codes far from one another, in no
order. Linear time has a ratio near 2; an ordered map takes a little more.
"""
import os
import random
import sys
import tempfile

import driver
import measure

DRIVER = '''//! Reads an abbreviation table, and finds each declaration by its code where it is asked to.
#![tactic(auto)]

use dwarf_abbrev::{Abbrev, Table, read_table};
use rv_io::{Buf, Inputs, RealInputs};
use std::env;
use std::process::ExitCode;
use std::rt::Env;

/// What to do, and with which file.
#[derive(Drop)]
struct Task {
    finds: bool,
    file: String,
}

fn main(rt: HostRuntime) -> ExitCode {
    let mut inputs = RealInputs::new(&rt);
    let mut file = Buf::new(rt.alloc());
    let Some(task) = task_of(&rt) else { return ExitCode::from(2) };
    if inputs.fetch(task.file.as_str(), 100_000_000, &mut file).is_err() {
        return ExitCode::from(3);
    }
    let Ok(table) = read_table(rt.alloc(), file.as_bytes(), 0) else { return ExitCode::from(1) };
    if !task.finds || all_found(&table, table.as_slice()) {
        ExitCode::from(0)
    } else {
        ExitCode::from(4)
    }
}

fn all_found(table: &Table, list: &[Abbrev]) -> bool {
    let mut all = true;
    for decl in list {
        all = all && table.find(decl.code).is_some();
    }
    all
}

fn task_of<R: Env + AllocGlobal>(rt: &R) -> Option<Task> {
    let mut args = env::args(rt).ok()?.skip(1);
    let finds = args.next()?.as_str() == "find";
    let file = args.next()?;
    Some(Task { finds, file })
}
'''


def leb(n):
    """An unsigned LEB128 number (DWARF 5, 7.6)."""
    out = bytearray()
    while n >= 128:
        out.append(128 + n % 128)
        n //= 128
    out.append(n)
    return bytes(out)


def write_table(path, codes):
    """For each code a base_type without children, whose name, byte_size and encoding are a string and two data1."""
    with open(path, 'wb') as out:
        for code in codes:
            out.write(leb(code) + bytes.fromhex('2400' '0308' '0b0b' '3e0b' '0000'))
        out.write(b'\0')


def rising(n):
    return range(1, n + 1)


def apart(n):
    return random.Random(n).sample(range(1, 2 ** 62), n)


def main():
    with tempfile.TemporaryDirectory(dir=sys.argv[1] if len(sys.argv) > 1 else None) as folder:
        paths = [os.path.join(folder, name) for name in ('once', 'twice')]
        write_table(paths[0], rising(1))
        program = driver.build(folder, 'tables', DRIVER, ['rv_io', 'rv_bytes', 'dwarf_abbrev'], ['find', paths[0]])
        measure.print_head('what')
        for codes in [rising, apart]:
            for path, n in zip(paths, [200000, 400000]):
                write_table(path, codes(n))
            for what in ('read', 'find'):
                once, twice = [measure.best([program, what, path], b'') for path in paths]
                measure.print_row('%s, %s' % (what, codes.__name__), os.path.getsize(paths[1]), once, twice)


if __name__ == '__main__':
    main()
