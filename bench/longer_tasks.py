#!/usr/bin/env python3
"""Times own_operator with 1, 2 and 4 workers in rounds and in mode free: longer_tasks.py PROGRAM [LENGTH ..]

Prints a table: the length of a task, how long one takes in a run with one worker, how many times as fast 2 and 4
workers are, and how many times as much 2 and 4 separate runs with one worker do at once: what the machine gives. Each
figure is from the least time of some runs by the clock, all kinds in turn.
With LOOKAHEAD, GROUPS and TASKS in the environment these are handed on, and RUNS says how many runs there are of each
kind.
Wants a machine with four idle processors."""
import os
import re
import subprocess
import sys
import time

LENGTHS = [10_000, 16_000, 20_000, 50_000, 100_000, 160_000, 200_000, 400_000, 800_000]
RUNS = int(os.environ.get('RUNS', '9'))
SHAPE = [os.environ.get('LOOKAHEAD', '1'), os.environ.get('GROUPS', '64'), os.environ.get('TASKS', '16384')]
WORKERS = [1, 2, 4]
MODES = ['rounds', 'free']


def start(program, mode, workers, length):
    return subprocess.Popen([program, mode, str(workers), str(length), *SHAPE], stdout=subprocess.PIPE)


def seconds(program, mode, workers, length, copies=1):
    """Seconds until all of so many runs at once have ended."""
    begun = time.perf_counter()
    runs = [start(program, mode, workers, length) for _ in range(copies)]
    if any([run.communicate() and run.returncode for run in runs]):
        sys.exit(f'{program} {mode} failed')
    return time.perf_counter() - begun


def tasks_of(program):
    """How many tasks a run has."""
    return int(re.search(rb'tasks (\d+)', start(program, 'serial', 1, 0).communicate()[0])[1])


def least(program, length):
    """The least seconds of each kind of run: a mode with so many workers, or so many copies in rounds."""
    kinds = {(mode, workers): (mode, workers, length) for mode in MODES for workers in WORKERS}
    kinds |= {('copies', copies): ('rounds', 1, length, copies) for copies in WORKERS[1:]}
    found = {kind: [] for kind in kinds}
    for _ in range(RUNS):
        for kind, words in kinds.items():
            found[kind].append(seconds(program, *words))
    return {kind: min(times) for kind, times in found.items()}


def main():
    program, lengths = os.path.abspath(sys.argv[1]), [int(word) for word in sys.argv[2:]] or LENGTHS
    tasks = tasks_of(program)
    heads = [f'{mode}, {workers} workers' for mode in MODES for workers in WORKERS[1:]] + [f'{copies} copies' for copies in WORKERS[1:]]
    print('| length | a task | ' + ' | '.join(heads) + ' |')
    print('|' + '---|' * (2 + len(heads)))
    for length in lengths:
        times = least(program, length)
        cells = [f'{times[mode, 1] / times[mode, workers]:.2f}' for mode in MODES for workers in WORKERS[1:]]
        cells += [f'{copies * times["rounds", 1] / times["copies", copies]:.2f}' for copies in WORKERS[1:]]
        print(f'| {length} | {times["rounds", 1] / tasks * 1e6:.1f} us | ' + ' | '.join(cells) + ' |', flush=True)


if __name__ == '__main__':
    main()
