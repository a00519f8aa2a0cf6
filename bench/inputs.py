#!/usr/bin/env python3
"""Writes the inputs of the tables into a folder: inputs.py DIR [NAME ..]

Each is made from a fixed seed, so it is the same on every machine. `table.py` has the words for each."""
import os
import random
import sys


class Netlist:
    """Lines of a deck in the making: inputs, outputs, gates and stimuli."""

    def __init__(self):
        self.inputs, self.outputs, self.gates, self.stimuli = [], [], [], []

    def input(self, name):
        self.inputs.append(name)
        return name

    def gate(self, kind, *drivers, name=None):
        name = name or f'n{len(self.gates) + 1}'
        self.gates.append(f'{name} = {kind}({", ".join(drivers)})')
        return name

    def random_stimuli(self, seed, count, gap):
        bits = random.Random(seed)
        for number in range(1, count + 1):
            self.stimuli.append(f'@ {number * gap} ' + ''.join(bits.choice('01') for _ in self.inputs))

    def text(self):
        lines = [f'INPUT({name})' for name in self.inputs] + [f'OUTPUT({name})' for name in self.outputs]
        return '\n'.join(lines + self.gates + self.stimuli) + '\n'

    def full_adder(self, a, b, carry):
        """Sum and carry of three signals, by nine NAND gates."""
        both = self.gate('NAND', a, b)
        half = self.gate('NAND', self.gate('NAND', a, both), self.gate('NAND', b, both))
        again = self.gate('NAND', half, carry)
        return self.gate('NAND', self.gate('NAND', half, again), self.gate('NAND', carry, again)), self.gate('NAND', both, again)


def multiplier(width, count, gap):
    """An array multiplier: rows of partial products, each added to what the rows before it gave."""
    net = Netlist()
    a = [net.input(f'a{bit}') for bit in range(width)]
    b = [net.input(f'b{bit}') for bit in range(width)]
    products = [[net.gate('AND', a[column], b[row]) for column in range(width)] for row in range(width)]
    net.outputs.append(products[0][0])
    above = products[0][1:]
    for row in range(1, width):
        sums, carry = [], None
        for column in range(width):
            signals = [products[row][column], above[column] if column < len(above) else None, carry]
            signals = [signal for signal in signals if signal is not None]
            if len(signals) == 3:
                total, carry = net.full_adder(*signals)
            elif len(signals) == 2:
                total, carry = net.gate('XOR', *signals), net.gate('NOT', net.gate('NAND', *signals))
            else:
                total, carry = signals[0], None
            sums.append(total)
        sums += [carry] if carry else []
        net.outputs.append(sums[0])
        above = sums[1:]
    net.outputs += above
    net.random_stimuli(width, count, gap)
    return net.text()


def adder(width, count, gap):
    """A ripple-carry adder."""
    net = Netlist()
    a = [net.input(f'a{bit}') for bit in range(width)]
    b = [net.input(f'b{bit}') for bit in range(width)]
    carry = net.input('cin')
    for bit in range(width):
        half = net.gate('XOR', a[bit], b[bit])
        net.outputs.append(net.gate('XOR', half, carry))
        carry = net.gate('OR', net.gate('AND', a[bit], b[bit]), net.gate('AND', half, carry))
    net.outputs.append(carry)
    net.random_stimuli(width, count, gap)
    return net.text()


def chain(length, are_outputs=False):
    """Inverters, one behind the other; the last one, or every one, is an output."""
    gates = ['g1 = NOT(a)'] + [f'g{at} = NOT(g{at - 1})' for at in range(2, length + 1)]
    outputs = [f'OUTPUT(g{at})' for at in range(1 if are_outputs else length, length + 1)]
    return '\n'.join(['INPUT(a)'] + gates + outputs) + '\n'


def feedback(taps, length):
    """A shift register of buffers whose first stage is the XNOR of some of them."""
    net = Netlist()
    net.gate('XNOR', *[f's{tap}' for tap in taps], name='s0')
    for stage in range(1, length):
        net.gate('BUFF', f's{stage - 1}', name=f's{stage}')
    net.outputs.append(f's{length - 1}')
    return net.text()


def rings(count, length):
    """Rings of inverters, of which all switch at once."""
    net = Netlist()
    for ring in range(count):
        for at in range(length):
            net.gate('NOT', f'r{ring}_{(at - 1) % length}', name=f'r{ring}_{at}')
        net.outputs.append(f'r{ring}_0')
    return net.text()


def counters(bits, count):
    """Binary counters of flip-flops, whose carries take 1 to 3 units."""
    lines = []
    for counter in range(count):
        carry = None
        for bit in range(bits):
            state, after = f'q{counter}_{bit}', f'd{counter}_{bit}'
            if carry is None:
                lines.append(f'{after} = NOT({state})')
                carry = state
            else:
                name = f'c{counter}_{bit}'
                lines += [f'{after} = XOR({state}, {carry})', f'{name} = AND({state}, {carry})', f'@delay {name} {1 + bit % 3}']
                carry = name
            lines.append(f'{state} = DFF({after})')
        lines.append(f'OUTPUT(q{counter}_{bits - 1})')
    return '\n'.join(lines) + '\n'


def stimuli(count):
    """One input that changes at each unit of time."""
    return 'INPUT(a)\nOUTPUT(a)\n' + ''.join(f'@ {at} {at % 2}\n' for at in range(1, count + 1))


def pattern(size, places):
    """A square pattern with ones at these places, counted from 0."""
    places = sorted(set(places))
    head = f'%%MatrixMarket matrix coordinate pattern general\n{size} {size} {len(places)}\n'
    return head + ''.join(f'{row + 1} {column + 1}\n' for row, column in places)


def sparse(size, count):
    chance = random.Random(size)
    return pattern(size, [(chance.randrange(size), chance.randrange(size)) for _ in range(count)])


def blocks(count, size):
    """Dense blocks, whose rows and columns are shuffled."""
    chance, whole = random.Random(count * size), count * size
    rows, columns = list(range(whole)), list(range(whole))
    chance.shuffle(rows)
    chance.shuffle(columns)
    places = [(block * size + row, block * size + column) for block in range(count) for row in range(size) for column in range(size)]
    return pattern(whole, [(rows[row], columns[column]) for row, column in places if chance.getrandbits(1)])


def banded(size, band):
    chance, places = random.Random(size + band), []
    for row in range(size):
        for column in range(max(0, row - band), min(size, row + band + 1)):
            if row == column or chance.random() < 0.8:
                places.append((row, column))
    return pattern(size, places)


def dense(size):
    chance = random.Random(size)
    return pattern(size, [(row, column) for row in range(size) for column in range(size) if chance.getrandbits(1)])


def grid(width):
    """The points of a grid, each with itself and its four neighbours."""
    places = [(at, at) for at in range(width * width)]
    for y in range(width):
        for x in range(width):
            here = y * width + x
            near = [here + 1] * (x + 1 < width) + [here + width] * (y + 1 < width)
            places += [pair for there in near for pair in ((here, there), (there, here))]
    return pattern(width * width, places)


def arrow(size):
    """A diagonal with a full first row and column."""
    ends = [(0, at) for at in range(size)] + [(at, 0) for at in range(size)]
    return pattern(size, ends + [(at, at) for at in range(size)])


def graph(scale, edges):
    """A directed graph of 2^scale vertices whose degrees differ much (R-MAT)."""
    chance, found = random.Random(edges), set()
    while len(found) < edges:
        row = column = 0
        for _ in range(scale):
            quarter = chance.random()
            row = 2 * row + (quarter >= 0.74)
            column = 2 * column + (0.55 <= quarter < 0.74 or quarter >= 0.93)
        found.add((row, column))
    return pattern(1 << scale, found)


def mesh(nodes, springs, end):
    lines = ['node %d %d %d %d %d' % node for node in nodes] + ['spring %d %d %d %d %d %d' % spring for spring in springs]
    return '\n'.join(lines + [f'end {end}']) + '\n'


def cloth(width, end):
    """A sheet of nodes with springs to the neighbours of each, those across slower and weaker."""
    chance, unit = random.Random(width), 1024
    shaken = [(x * unit + chance.randrange(-128, 128), y * unit + chance.randrange(-128, 128)) for y in range(width) for x in range(width)]
    springs = []
    for y in range(width):
        for x in range(width):
            for dx, dy, stiffness, step in ((1, 0, 20, 2), (0, 1, 20, 2), (1, 1, 5, 4), (-1, 1, 5, 4)):
                if 0 <= x + dx < width and y + dy < width:
                    springs.append((y * width + x + 1, (y + dy) * width + x + dx + 1, stiffness, dx * unit, dy * unit, step))
    return mesh([(x, y, 0, 0, 1000) for x, y in shaken], springs, end)


def pairs(count, end):
    """Springs of which no two meet."""
    chance, unit, nodes, springs = random.Random(count), 1024, [], []
    for number in range(count):
        nodes += [(0, number * unit, 0, 0, 1000), (unit + chance.randrange(256), number * unit, 0, 0, 1000)]
        springs.append((2 * number + 1, 2 * number + 2, 10, unit, 0, 2))
    return mesh(nodes, springs, end)


INPUTS = {
    'chain999.bench': lambda: chain(999),
    'rings3.bench': lambda: rings(1365, 3),
    'mult16.bench': lambda: multiplier(16, 20, 200),
    'adder64.bench': lambda: adder(64, 100, 140),
    'feedback16.bench': lambda: feedback((15, 14, 12, 3), 16),
    'counters.bench': lambda: counters(12, 60),
    'stimuli.bench': lambda: stimuli(65536),
    'pairs2048.mesh': lambda: pairs(2048, 1000),
    'cloth32.mesh': lambda: cloth(32, 500),
    'cloth64.mesh': lambda: cloth(64, 250),
    'banded4096.mtx': lambda: banded(4096, 2),
    'blocks64x64.mtx': lambda: blocks(64, 64),
    'blocks16x256.mtx': lambda: blocks(16, 256),
    'dense512.mtx': lambda: dense(512),
    'dense1400.mtx': lambda: dense(1400),
    'sparse1000.mtx': lambda: sparse(1000, 5000),
    'sparse4096_12000.mtx': lambda: sparse(4096, 12000),
    'sparse4096.mtx': lambda: sparse(4096, 40000),
    'grid64.mtx': lambda: grid(64),
    'arrow1000.mtx': lambda: arrow(1000),
    'graph12.mtx': lambda: graph(12, 200000),
}


def write(folder, names):
    os.makedirs(folder, exist_ok=True)
    for name in names or INPUTS:
        with open(os.path.join(folder, name), 'w') as file:
            file.write(INPUTS[name]())


if __name__ == '__main__':
    write(sys.argv[1], sys.argv[2:])
