#!/usr/bin/env python3
"""Measures the built program, in ratios: a figure at one size against itself at another.

usage: bench/run.py [PROGRAM]      PROGRAM is crates/actx/out/actx if not given

Cells are measured beside a plain list by the program of `crates/cells_speed`, objects by that of `crates/objects_speed`, and
frames by that of `crates/frame_speed`, where these are built (`rt run` there).

Each line: what was measured, the two sizes in bytes, the time and the peak of memory at the larger one, and the ratio of
the times per byte, which is near 1 where time is in proportion to size. Times are the least of five runs.
"""
import os, subprocess, sys, tempfile, time

TOP = os.path.dirname(os.path.dirname(os.path.abspath(__file__)))
KIB = 1 << 10

PRINTING = b"console.log('row', 12345);\n"

# Names, numbers, texts, templates, comments and many signs: tokens of every kind in functions, and no printing statement.
NAMES = 'let total = 0, items = [], k = 0, left = 0, right = 0, größe;\n'.encode()
MIXED = """{ const handle = async (request, { id = 0x, name }) => { // one request
  if (request?.tries >= 10 && !request.done || id !== 7) return `${name}: ${id + 1} of ${"all"}`;
  /* a comment
     of two lines */ total += items[k] * 3 - (left - right) % 12; größe = '\\u0041\\n';
}; }
""".replace('0x', '0').encode()


def repeated(line):
    """Files of one piece of text, again and again, up to a size."""
    return lambda size: line * (size // len(line))


def between(front, piece, back):
    """Files of one front, a piece again and again up to a size, and one back."""
    return lambda size: front + piece * (size // len(piece)) + back


def numbered(front, piece, back):
    """The same, with the number of each piece, from 1, for `N` in it, and the number before it for `M`."""
    def make(size):
        pieces, length, i = [], 0, 0
        while length < size - len(front) - len(back) - 64:
            i += 1
            pieces.append(piece.replace(b'N', b'%d' % i).replace(b'M', b'%d' % (i - 1)))
            length += len(pieces[-1])
        return front + b''.join(pieces) + back
    return make


def functions(size):
    """Functions in functions, 190 deep, again and again up to a size."""
    one = b'{ ' + b'function f() {' * 190 + b'}' * 190 + b' }\n'
    return one * (size // len(one))


# What `actx` reads whole, looks through for early errors, and then refuses: the last word is that of the refusal. A file
# of 500 KiB has 100,000 of the pairs of brackets, one of 1,024 KiB some 60,000 names.
TREES = [
    ('mixed code', between(NAMES, MIXED, b''), 1024, 'notbuilt'),
    ('pairs of brackets', between(b'let a;\n', b'(a);\n', b''), 500, 'notbuilt'),
    ('brackets in one chain', between(b'let a, b, c; a = b', b' + (c)', b';'), 500, 'notbuilt'),
    ('parameters of one arrow', numbered(b'let x = (', b'pN, ', b'p0) => 0;'), 500, 'notbuilt'),
    ('suffixes of one place', between(b'let a; a', b'.b', b' = 1;'), 500, 'notbuilt'),
    ('functions in functions', functions, 500, 'notbuilt'),
    ('open brackets alone', repeated(b'('), 1024, 'nested'),
    ('semicolons', repeated(b';'), 1000, 'notbuilt'),
    ('names in one scope', numbered(b'let n0;\n', b'let nN = nM;\n', b''), 1024, 'notbuilt'),
    ('functions in one scope', numbered(b'let f0;\n', b'function fN() { return fM; }\n', b''), 1024, 'notbuilt'),
    ('a name twice at the end', numbered(b'let n0;\n', b'let nN = nM;\n', b'let n0;\n'), 1024, 'early'),
]


def once(program, folder, expected, word):
    """The time of one run in seconds, and its peak of memory in KiB. A refusal says this word."""
    with open(os.path.join(folder, 'out'), 'wb') as out:
        start = time.perf_counter()
        child = subprocess.Popen([program, 'run', 'f.js'], cwd=folder, stdout=out, stderr=subprocess.PIPE)
        _, status, used = os.wait4(child.pid, 0)
        took = time.perf_counter() - start
    line, status = child.stderr.read().decode(), os.waitstatus_to_exitcode(status)
    if status != expected or word and not line.startswith(f'actx: refused {word} at '):
        sys.exit(f'status {status}, expected {expected}: {line}')
    return took, used.ru_maxrss


def measure(program, name, make, sizes, expected, word=''):
    """One line: `make(size)` is the file that is run, `expected` the status, and `word` that of a refusal."""
    best = []
    with tempfile.TemporaryDirectory() as folder:
        for size in sizes:
            content = make(size)
            with open(os.path.join(folder, 'f.js'), 'wb') as file:
                file.write(content)
            runs = [once(program, folder, expected, word) for _ in range(5)]
            best.append((len(content), min(t for t, _ in runs), max(m for _, m in runs)))
    (small, early, _), (large, late, memory) = best
    ratio = (late / large) / (early / small)
    print(f'{name}: {small} and {large} bytes: {late:.3f} s, {memory / 1024:.1f} MiB, ratio per byte {ratio:.2f}')


def cells(program, count):
    """One line: the time of `count` writes and reads of cells, against the same of a list by index."""
    times = {}
    for what in ('cells', 'list'):
        runs = []
        for _ in range(5):
            start = time.perf_counter()
            subprocess.run([program, what, str(count)], check=True, stdout=subprocess.DEVNULL)
            runs.append(time.perf_counter() - start)
        times[what] = min(runs)
    print(f'cells: {count} writes and reads: {times["cells"]:.3f} s, {2 * count / times["cells"] / 1e6:.0f} million a second, '
          f'ratio to a list {times["cells"] / times["list"]:.2f}')


def least(program, *words):
    """The least time of five runs with these words."""
    runs = []
    for _ in range(5):
        start = time.perf_counter()
        subprocess.run([program, *map(str, words)], check=True, stdout=subprocess.DEVNULL)
        runs.append(time.perf_counter() - start)
    return min(runs)


def objects(program):
    """Three lines: reads of properties of a small and of a large object, elements put into an array, and a Map that is filled,
    walked, half dropped and walked again."""
    few, many = (least(program, 'names', 10_000_000, width) for width in (8, 10_000))
    print(f'properties: 10000000 reads of 8 and of 10000: {few:.3f} and {many:.3f} s, ratio {many / few:.2f}')
    small, large = (least(program, 'push', count) for count in (1_000_000, 4_000_000))
    print(f'elements: 4000000 put at the end: {large:.3f} s, ratio per element to 1000000 {large / (4 * small):.2f}')
    print(f'Map: 1000000 entries put, walked, half of them dropped, walked: {least(program, "map", 1_000_000):.3f} s')


def frames(program):
    """Two lines: answers to the requests of `while (true) {}`, and of `while (true) { i += 1; }`, so many and twice as many."""
    for what, name in (('ticks', 'turns of an empty loop'), ('adds', 'requests of a loop that adds')):
        once, twice = (least(program, what, count) for count in (3_000_000, 6_000_000))
        print(f'frames: 3000000 {name}: {once:.3f} s, {3 / once:.1f} million a second, ratio per answer at twice as many {twice / (2 * once):.2f}')


def main():
    program = os.path.abspath(sys.argv[1]) if len(sys.argv) > 1 else os.path.join(TOP, 'crates/actx/out/actx')
    if not os.path.exists(program):
        sys.exit('no program: run bin/actx once')
    measure(program, 'printing statements', repeated(PRINTING), (512 * KIB, 1024 * KIB), 0)
    for name, make, size, word in TREES:
        measure(program, name, make, (size // 4 * KIB, size * KIB), 65, word)
    beside = os.path.join(TOP, 'crates/cells_speed/out/cells_speed')
    if os.path.exists(beside):
        cells(beside, 10_000_000)
    beside = os.path.join(TOP, 'crates/objects_speed/out/objects_speed')
    if os.path.exists(beside):
        objects(beside)
    beside = os.path.join(TOP, 'crates/frame_speed/out/frame_speed')
    if os.path.exists(beside):
        frames(beside)


if __name__ == '__main__':
    main()
