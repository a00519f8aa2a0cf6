#!/usr/bin/env python3
"""Runs the program on inputs at their limits: load.py KDG [NAME ..]

Each input has at most 16 MiB and as much of what is counted as its format allows; it is made from a fixed seed. Each line
of the table is one run: its words, seconds by the clock, the most memory, the exit code, and the last line of what was
printed or of the fault. With LIMIT_MB in the environment a run has no more memory than that."""
import os
import random
import resource
import subprocess
import sys
import tempfile
import time

BYTES = 1 << 24
LIMIT = int(os.environ.get('LIMIT_MB', '0')) << 20
ALL = '--budget 1000000000'


def filled(lines, comment):
    """The lines, and a comment behind them that fills what is left of 16 MiB."""
    text = '\n'.join(lines) + '\n'
    return text + comment + 'x' * (BYTES - len(text) - len(comment))


def gates(kind='NAND', stimuli=0):
    """An input and 4,095 gates of 255 fan-ins each, of earlier signals, by long names."""
    pick = random.Random(1)
    names = [f'signal_{number:05}' for number in range(4096)]
    lines = [f'INPUT({names[0]})', f'OUTPUT({names[4095]})']
    for number in range(1, 4096):
        lines.append(f'{names[number]} = {kind}({",".join(pick.choice(names[:number]) for _ in range(255))})')
    lines += [f'@ {time} {time % 2}' for time in range(1, stimuli + 1)]
    return filled(lines, '#')


def stimuli():
    """65,536 stimuli of 200 inputs, each of which drives an inverter."""
    pick = random.Random(2)
    lines = [f'INPUT(a{number})' for number in range(200)]
    lines += [f'x{number} = NOT(a{number})' for number in range(200)]
    lines += [f'@ {time} {pick.getrandbits(200):0200b}' for time in range(1, 65537)]
    return filled(lines, '#')


def places(rows):
    """1,000,000 different places of a matrix."""
    pick = random.Random(3)
    found = pick.sample(range(rows * rows), 1_000_000)
    lines = ['%%MatrixMarket matrix coordinate pattern general', f'{rows} {rows} 1000000']
    return filled(lines + [f'{place // rows + 1} {place % rows + 1}' for place in found], '%')


def springs():
    """4,096 nodes and 16,384 springs, each of which pulls 100 times."""
    pick = random.Random(4)
    lines = [f'node {pick.randrange(1 << 30)} {pick.randrange(1 << 30)} 0 0 {pick.randrange(1, 1000)}' for _ in range(4096)]
    for _ in range(16384):
        one, other = pick.sample(range(1, 4097), 2)
        lines.append(f'spring {one} {other} {pick.randrange(100)} 5 5 1')
    return filled([*lines, 'end 100'], '#')


INPUTS = {
    # At time 1 each of them turns, and every gate has an event of each of its fan-ins.
    'gates': (gates, 'sim --until 3'),
    # None turns but those that read the input alone, so a gate has one event at a time.
    'still_gates': (lambda: gates('AND', 100), 'sim --until 101'),
    'stimuli': (stimuli, 'sim --until 65536'),
    'places': (lambda: places(4096), 'rank'),
    'edges': (lambda: places(4096), 'levels'),
    'springs': (springs, 'mesh'),
}
MODES = ['serial', 'rounds --workers 64', 'free --workers 64', 'marks --workers 64']


def peak(process):
    """The most memory that a process has had, in KiB. What waiting for it tells counts in that of this program."""
    try:
        with open(f'/proc/{process}/status') as status:
            return next((int(line.split()[1]) for line in status if line.startswith('VmHWM')), 0)
    except (FileNotFoundError, ProcessLookupError):
        return 0


def run(kdg, words, path, seconds):
    """A line of the table."""
    limited = (lambda: resource.setrlimit(resource.RLIMIT_AS, (LIMIT, LIMIT))) if LIMIT else None
    begun = time.perf_counter()
    with open(path) as source, tempfile.TemporaryFile() as out, tempfile.TemporaryFile() as errors:
        process = subprocess.Popen([kdg, *words.split()], stdin=source, stdout=out, stderr=errors, preexec_fn=limited)
        most, stopped = 0, False
        while process.poll() is None:
            most = max(most, peak(process.pid))
            if time.perf_counter() - begun > seconds:
                process.kill()
                stopped = True
            time.sleep(0.02)
        took = time.perf_counter() - begun
        told = b''
        for file in (errors, out):
            file.seek(max(0, file.seek(0, 2) - 200))
            told = told or file.read()
    last = told.decode(errors='replace').rstrip().split('\n')[-1]
    answer = f'stopped after {seconds} s' if stopped else f'{process.returncode}: `{last}`'
    print(f'| `{words}` | {took:.1f} s | {most >> 10} MB | {answer} |', flush=True)


def main():
    kdg, names = os.path.abspath(sys.argv[1]), sys.argv[2:] or list(INPUTS)
    seconds = int(os.environ.get('SECONDS_EACH', '600'))
    print('| words | time | memory | exit code, last line |\n|---|---|---|---|')
    with tempfile.NamedTemporaryFile('w') as file:
        for name in names:
            make, words = INPUTS[name]
            file.seek(0)
            file.truncate()
            file.write(make())
            file.flush()
            for mode in MODES:
                run(kdg, f'{words} {ALL} --mode {mode}', file.name, seconds)


if __name__ == '__main__':
    main()
