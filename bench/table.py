#!/usr/bin/env python3
"""Prints a table of times: table.py KDG [--plain PROGRAM] [--only PREFIX,..] [--modes serial,rounds:1,rounds:4] [--runs 5]

The inputs are those of inputs.py. A column is a mode, or a mode and a number of workers; the programs of a row run in
turn, and the figure is the least of all runs, by the clock, with the most memory of any where GNU time is installed. PROGRAM
takes the words of `kdg`; where it is given, its time comes first and each figure has its ratio to it. Output that differs
from the first column's is told, and so is a run of more than two minutes."""
import argparse
import os
import shutil
import signal
import subprocess
import tempfile
import threading
import time

import inputs

WORDS = {
    'chain999.bench': ('sim', 'a chain of 999 inverters'),
    'rings3.bench': ('sim --until 200', '1,365 rings of three inverters'),
    'mult16.bench': ('sim --until 4200', 'a 16 by 16 multiplier, 20 stimuli'),
    'adder64.bench': ('sim --until 14140', 'an adder of 64 bits, 100 stimuli'),
    'feedback16.bench': ('sim --until 20000', 'a feedback over 16 gates'),
    'counters.bench': ('sim --clock 40 --until 20000', '60 counters of 12 flip-flops'),
    'stimuli.bench': ('sim --until 65536', '65,536 stimuli of one input'),
    'pairs2048.mesh': ('mesh', '2,048 pairs of nodes'),
    'cloth32.mesh': ('mesh', 'a cloth of 32 by 32 nodes'),
    'cloth64.mesh': ('mesh', 'a cloth of 64 by 64 nodes'),
    'banded4096.mtx': ('rank', 'banded, 4,096 rows'),
    'blocks64x64.mtx': ('rank', '64 blocks of 64 rows'),
    'blocks16x256.mtx': ('rank', '16 blocks of 256 rows'),
    'dense512.mtx': ('rank', 'dense, 512 rows'),
    'dense1400.mtx': ('rank', 'dense, 1,400 rows'),
    'sparse1000.mtx': ('rank', 'sparse, 1,000 rows, 5,000 places'),
    'sparse4096_12000.mtx': ('rank', 'sparse, 4,096 rows, 12,000 places'),
    'sparse4096.mtx': ('rank', 'sparse, 4,096 rows, 40,000 places'),
    'grid64.mtx': ('rank', 'a grid of 64 by 64 points'),
    'arrow1000.mtx': ('rank', 'an arrow of 1,000 rows'),
    'graph12.mtx': ('levels', 'a graph of 4,096 vertices, 200,000 edges'),
}
LIMIT = 120
TIME = shutil.which('time', path='/usr/bin')


def run(command, file):
    """Seconds, kilobytes or nothing, and what was printed; or nothing at all where it took too long."""
    with tempfile.NamedTemporaryFile() as said, tempfile.TemporaryFile() as out, open(file, 'rb') as source:
        measured = [TIME, '-f', '%M', '-o', said.name] if TIME else []
        begun = time.perf_counter()
        process = subprocess.Popen(measured + command, stdin=source, stdout=out, start_new_session=True)
        # A wait with a limit would look only now and then.
        late = threading.Timer(LIMIT, os.killpg, (process.pid, signal.SIGKILL))
        late.start()
        code = process.wait()
        seconds = time.perf_counter() - begun
        late.cancel()
        if seconds >= LIMIT:
            return None
        assert code == 0, (command, file, code)
        out.seek(0)
        return seconds, int(said.read() or 0), out.read()


def shown(runs, plain):
    """A figure of the table: the least time, its ratio to that of the plain program, and the most memory."""
    if None in runs:
        return f'over {LIMIT} s'
    least = min(seconds for seconds, _, _ in runs)
    ratio = f', {least / plain:.1f}' if plain else ''
    memory = max(kilobytes for _, kilobytes, _ in runs)
    told = f'{least * 1000:.3g} ms' if least < 1 else f'{least:.3g} s'
    return told + ratio + (f', {memory / 1024:.1f} MB' if memory else '')


def columns_of(args, words):
    for column in args.modes.split(','):
        mode, _, workers = column.partition(':')
        yield column, [args.kdg, *words, '--mode', mode] + (['--workers', workers] if workers else [])


def row(args, folder, name):
    words, title = WORDS[name]
    words = [*words.split(), '--budget', '1000000000']
    commands = {'plain': [args.plain, *words]} if args.plain else {}
    commands.update(columns_of(args, words))
    inputs.write(folder, [name])
    runs = {column: [] for column in commands}
    for _ in range(args.runs):
        for column, command in commands.items():
            if None not in runs[column]:
                runs[column].append(run(command, os.path.join(folder, name)))
    plain = min(seconds for seconds, _, _ in runs['plain']) if args.plain and None not in runs['plain'] else None
    prints = [got[0][2] for got in runs.values() if None not in got]
    differs = ' (the prints differ)' if any(text != prints[0] for text in prints) else ''
    figures = [shown(got, None if column == 'plain' else plain) for column, got in runs.items()]
    print(f'| {title}{differs} | ' + ' | '.join(figures) + ' |', flush=True)


def main():
    parser = argparse.ArgumentParser(description=__doc__.split('\n')[0])
    parser.add_argument('kdg')
    parser.add_argument('--plain')
    parser.add_argument('--only', default='')
    parser.add_argument('--modes', default='serial,rounds:1,rounds:4')
    parser.add_argument('--runs', type=int, default=5)
    args = parser.parse_args()
    args.kdg = os.path.abspath(args.kdg)
    heads = ['input'] + ['plain'] * bool(args.plain) + args.modes.split(',')
    print('| ' + ' | '.join(heads) + ' |\n|' + '---|' * len(heads))
    with tempfile.TemporaryDirectory() as folder:
        for name in WORDS:
            if name.startswith(tuple(args.only.split(','))):
                row(args, folder, name)


if __name__ == '__main__':
    main()
