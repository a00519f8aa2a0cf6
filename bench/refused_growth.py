#!/usr/bin/env python3
"""Refuses each allocation of some runs in turn: refused_growth.py KDG [--workers 3]

Runs the examples in every mode, and once more for each of its allocations, in which that one is refused,
and again with all after it. Each run must print its whole print and end with 0, or a front of it and end with
the code of want of memory. It prints how many allocations each run makes."""
import argparse
import os
import subprocess
import tempfile

HERE = os.path.dirname(os.path.abspath(__file__))
EXAMPLES = os.path.join(HERE, '..', 'examples')
RUNS = [('sim', 'c17.bench'), ('sim', 's27.bench'), ('rank', 'petersen.mtx'), ('mesh', 'cloth.mesh'), ('levels', 'debruijn.mtx')]
MODES = ['serial', 'rounds', 'free', 'marks']
NO_MEMORY = 8


def run(command, file, library, **env):
    env = {**os.environ, 'LD_PRELOAD': library, **{k: str(v) for k, v in env.items()}}
    with open(os.path.join(EXAMPLES, file), 'rb') as source:
        return subprocess.run(command, stdin=source, capture_output=True, env=env, timeout=60)


def main():
    parser = argparse.ArgumentParser(description=__doc__.split('\n')[0])
    parser.add_argument('kdg')
    parser.add_argument('--workers', default='3')
    args = parser.parse_args()
    tried, ended, whole = 0, 0, 0
    with tempfile.TemporaryDirectory() as folder:
        library, count = os.path.join(folder, 'refuse.so'), os.path.join(folder, 'count')
        subprocess.run(['cc', '-O2', '-shared', '-fPIC', '-o', library, os.path.join(HERE, 'refuse_growth.c')], check=True)
        for word, file in RUNS:
            for mode in MODES:
                command = [os.path.abspath(args.kdg), word, '--mode', mode, '--workers', args.workers]
                first = run(command, file, library, COUNT_TO=count)
                assert first.returncode == 0, first
                with open(count, 'rb') as kept:
                    total = int.from_bytes(kept.read(8), 'little')
                for place in range(1, total + 1):
                    for how in ('REFUSE', 'REFUSE_FROM'):
                        got = run(command, file, library, **{how: place})
                        tried += 1
                        ended += got.returncode == NO_MEMORY
                        whole += got.returncode == 0
                        fine = got.stdout == first.stdout if got.returncode == 0 else got.returncode == NO_MEMORY and first.stdout.startswith(got.stdout)
                        assert fine, (command, file, how, place, got)
                print(f'{word} {file} in mode {mode}: {total} allocations')
    print(f'{tried} runs: {ended} of them had no memory, {whole} printed all')


if __name__ == '__main__':
    main()
