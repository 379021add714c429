"""What the scripts share that measure calls which no command of rdbg makes yet: a small program over some crates. No script by itself."""
import os
import shutil
import subprocess
import sys

TOP = os.path.dirname(os.path.dirname(os.path.abspath(__file__)))


def build(folder, name, source, crates, words):
    """The program `name`, built by rt from one source over copies of these crates and of what their checks kept.

    The crates are named lowest first, each with those below it. Building runs the program once with these words, and it has to end with
    status 0.
    """
    copies = os.path.join(folder, 'crates')
    os.makedirs(os.path.join(copies, name, 'src'))
    for crate in crates:
        shutil.copytree(os.path.join(TOP, 'crates', crate), os.path.join(copies, crate))
    with open(os.path.join(TOP, 'crates.txt')) as lines:
        listed = [line for line in lines if line.split(':')[0] in crates]
    used = [crate for crate in crates if 'use %s::' % crate in source]
    with open(os.path.join(folder, 'crates.txt'), 'w') as out:
        out.write(''.join(listed) + '%s: %s\n' % (name, ' '.join(used)))
    with open(os.path.join(copies, name, 'src', 'main.rt'), 'w') as out:
        out.write(source)
    subprocess.run(['rt', 'run', '--'] + words, cwd=os.path.join(copies, name), check=True, stdout=sys.stderr)
    return os.path.join(copies, name, 'out', name)
