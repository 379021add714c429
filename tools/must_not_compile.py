#!/usr/bin/env python3
"""Misuses that must not compile: each is a small program that compiles as it stands, and with one changed line must be refused.

    tools/must_not_compile.py

Each program is written into a folder of its own, outside the repository, beside copies of the crates that it uses, and compiled by
`rt try`, which proves nothing. Ends with status 1 where a program doesn't compile, or where a misuse does or is refused for another reason.
"""
import os
import shutil
import subprocess
import sys
import tempfile

TOP = os.path.dirname(os.path.dirname(os.path.abspath(__file__)))

ARENA = '''//! Prints a value that was read into an arena.
#![tactic(auto)]

ghost use Rattle.std.specs.Prelude.{◌≤◌};
ghost use Rattle.layout_set.specs.HasSizes.{HasSizes};

use bumpalo::Bump;
use image_view::Image;
use layout_set::{Primitive, Set, Target, TypeRef};
use rust_value::text_in;
use rv_io::{Buf, List, Memory};
use snapshot_file::Mem;
use std::process::ExitCode;
use value_reader::{OutcomeIn, read_in};

/// Appends the text of the byte at an address, if it is there.
fn put_byte(
    bump: &mut Bump,
    set: &Set,
    mem: &Mem,
    at: u64,
    out: &mut Buf,
) -> Result<(), Memory>
    requires { HasSizes set.now }
{
    let ty = TypeRef::Prim(Primitive::U8);
    let outcome = read_in(bump, set, ty, Image::of_mem(mem, at, 1), mem, 4, 32)?;
    // between
    if let OutcomeIn::Value(value) = outcome {
        text_in(&value, out)?;
    }
    let _ = bump.reset();
    Ok(())
}

fn main(rt: HostRuntime) -> ExitCode {
    let mut bump = Bump::new(rt.alloc());
    let mut out = Buf::new(rt.alloc());
    let set = Set {
        target: Target { ptr: 8 },
        types: List::new(rt.alloc()),
        statics: List::new(rt.alloc()),
        funcs: List::new(rt.alloc()),
    };
    match put_byte(&mut bump, &set, &Mem::new(rt.alloc()), 0, &mut out) {
        Ok(()) => ExitCode::from(0),
        Err(_) => ExitCode::from(1),
    }
}
'''

# A name that says the misuse, the program, the line that is changed, what it becomes, and a word of the refusal.
MISUSES = [
    ('a value is printed after its arena was reset', ARENA, '    // between\n', '    let _ = bump.reset();\n', 'borrow'),
]


def below(name, crates):
    """The crates of the repository that a crate needs, lowest first, and itself."""
    found = []
    for dep in crates.get(name, []):
        found += [it for it in below(dep, crates) if it not in found]
    return found + [name] if name in crates else found


def compiled(source):
    """What `rt try` says of a program of this source, and its status."""
    with open(os.path.join(TOP, 'crates.txt')) as lines:
        listed = [line.split('#')[0].strip() for line in lines]
    crates = {line.split(':')[0]: line.split(':')[1].split() for line in listed if line}
    used = sorted({line.split()[1].split('::')[0] for line in source.split('\n') if line.startswith('use ')} - {'std'})
    with tempfile.TemporaryDirectory() as folder:
        copies = os.path.join(folder, 'crates')
        kept = []
        for name in used:
            kept += [it for it in below(name, crates) if it not in kept]
        for name in kept:
            shutil.copytree(os.path.join(TOP, 'crates', name), os.path.join(copies, name), ignore=shutil.ignore_patterns('out'))
        os.makedirs(os.path.join(copies, 'misuse', 'src'))
        with open(os.path.join(folder, 'crates.txt'), 'w') as out:
            out.write(''.join('%s: %s\n' % (name, ' '.join(crates[name])) for name in kept) + 'misuse: %s\n' % ' '.join(used))
        with open(os.path.join(copies, 'misuse', 'src', 'main.rt'), 'w') as out:
            out.write(source)
        ran = subprocess.run(['rt', 'try'], cwd=os.path.join(copies, 'misuse'), stdin=subprocess.DEVNULL, stdout=subprocess.PIPE, stderr=subprocess.STDOUT, text=True)
    return ran.stdout, ran.returncode


def main():
    failed = False
    for name, source, old, new, word in MISUSES:
        said, status = compiled(source)
        if status != 0:
            print('%s: the right program does not compile\n%s' % (name, said))
            failed = True
        said, status = compiled(source.replace(old, new))
        errors = [line for line in said.split('\n') if 'error' in line]
        if status == 0 or not any(word in line for line in errors):
            print('%s: not refused as it must be: status %d\n%s' % (name, status, said))
            failed = True
        else:
            print('%s: refused: %s' % (name, errors[0]))
    sys.exit(1 if failed else 0)


if __name__ == '__main__':
    main()
