#!/usr/bin/env python3
"""Counts instructions with valgrind. Counts do not depend on what else the machine does.

  docs/instructions.py crates/cf_tool/out/cf_tool          # a command of four scripts
  docs/instructions.py crates/cf_tool/out/cf_tool bench    # a generated command, for each manager
  docs/instructions.py crates/cf_tool/out/cf_tool frag     # `frag` of TLSF with 1 free block, and with 22,400
  docs/instructions.py crates/bench/out/bench alone        # a generated command on each heap alone
  docs/instructions.py crates/bench/out/bench longest      # the longest single calls, with their mispredicted branches
  docs/instructions.py crates/bench/out/bench long         # a byte of a long object, and of an object of one page
  docs/instructions.py crates/bench/out/bench slices       # the calls of a sliced heap

mix    mallocs, frees, writes and reads of eight bytes on 1,024 pages of 16 KiB
hex    writes and reads of 4,096 bytes
churn  a free that moves 922 words, and a malloc, each time
tiny   mallocs and frees of 0 to 23 bytes
The count of a run of the first line alone is taken off.
"""
import glob, os, random, re, subprocess, sys, tempfile

sys.dont_write_bytecode = True  # (in tools/)
sys.path.append(os.path.join(os.path.dirname(os.path.dirname(os.path.realpath(__file__))), 'tools'))
from page_needs import class_sizes, payload

MANAGERS = {'cf': 'c', 'nm': 'n', 'tlsf': 't', 'half': 'h'}

M64 = (1 << 64) - 1
# `rep stos` and `rep movs` would count as one instruction for each word.
ENV = dict(os.environ, GLIBC_TUNABLES='glibc.cpu.x86_rep_stosb_threshold=1000000000:glibc.cpu.x86_rep_movsb_threshold=1000000000')


def splitmix(seed):
    s = seed
    while True:
        s = (s + 0x9E3779B97F4A7C15) & M64
        z = s
        z = ((z ^ (z >> 30)) * 0xBF58476D1CE4E5B9) & M64
        z = ((z ^ (z >> 27)) * 0x94D049BB133111EB) & M64
        yield z ^ (z >> 31)


def mix(n):
    out, words = ['heap 1024 16384 1 4096'], splitmix(1)
    for _ in range(n):
        g = next(words)
        i, w = g % 4096, (g >> 12) % 8
        if w < 3:
            out.append('m %d %d' % (i, (g >> 16) % (16384 if (g >> 32) % 8 == 0 else 1024)))
        elif w < 5:
            out.append('f %d' % i)
        elif w == 5:
            out.append('w %d 0 %s' % (i, g.to_bytes(8, 'little').hex()))
        else:
            out.append('r %d 0 8' % i)
    return out, n


def hexes(n):
    r = random.Random(4)
    out = ['heap 64 16384 1 64'] + ['m %d 16000' % i for i in range(40)]
    for _ in range(n // 2):
        out.append('w %d %d %s' % (r.randrange(40), r.randrange(11904), r.randbytes(4096).hex()))
        out.append('r %d %d 4096' % (r.randrange(40), r.randrange(11904)))
    return out, n


def churn(n):
    r = random.Random(7)
    out = ['heap 64 16384 1 64'] + ['m %d 7368' % i for i in range(33)]
    for _ in range(n // 2):
        i = r.randrange(33)
        out += ['f %d' % i, 'm %d 7368' % i]
    return out, n


def tiny(n):
    r, out = random.Random(9), ['heap 64 16384 1 64']
    for _ in range(n // 2):
        i = r.randrange(64)
        out += ['m %d %d' % (i, r.randrange(24)), 'f %d' % i]
    return out, n


def count(argv, lines):
    with tempfile.NamedTemporaryFile('w') as f:
        f.write('\n'.join(lines) + '\n')
        f.flush()
        p = subprocess.run(['valgrind', '--tool=cachegrind', '--cache-sim=no', '--cachegrind-out-file=/dev/null'] + argv,
                           stdin=open(f.name), stdout=subprocess.DEVNULL, stderr=subprocess.PIPE, text=True, env=ENV)
    if p.returncode:
        sys.exit('status %d: %s' % (p.returncode, p.stderr[-300:]))
    return int(re.search(r'I\s+refs:\s+([\d,]+)', p.stderr)[1].replace(',', ''))

# ---- calls on heaps alone: scripts of crates/bench/src/main.rt

def line(op, a=0, b=0, c=0):
    return '%s %05d %07d %07d' % (op, a, b, c)


def callgrind(program, script, name, every):
    """The instructions and the mispredicted branches of the last call of a function by its full name; of each call if every is set."""
    with tempfile.TemporaryDirectory() as folder:
        p = subprocess.run(['valgrind', '--tool=callgrind', '--branch-sim=yes', '--collect-atstart=no', '--toggle-collect=' + name,
                            ('--dump-after=' if every else '--zero-before=') + name, '--callgrind-out-file=' + folder + '/calls', program],
                           input=script, stdout=subprocess.PIPE, stderr=subprocess.PIPE, text=True, env=ENV)
        if p.returncode:
            sys.exit('status %d: %s' % (p.returncode, p.stderr[-300:]))
        counts = []
        for out in glob.glob(folder + '/calls*'):
            text = open(out).read()
            events = re.search(r'^events: (.*)$', text, re.M)[1].split()
            # The line `totals` counts an instruction of each earlier call too.
            count = dict(zip(events, map(int, re.search(r'^summary: (.*)$', text, re.M)[1].split())))
            if count.get('Ir'):
                counts.append((count['Ir'], count.get('Bcm', 0) + count.get('Bim', 0)))
        return counts


def named(program, function):
    """The full names of a function: it stands in the program once for each kind of heap, and ends by the kind's own letters."""
    return re.findall(r' t (bench::\S*%s\S*)' % function, subprocess.run(['nm', program], stdout=subprocess.PIPE, text=True).stdout)


ENDS = {}


def calls(program, lines, function, every=False):
    """The same by a part of its name, for the kind of heap that the script's first line says."""
    names, kind = named(program, function), lines[0][0]
    if len(names) > 1:
        if kind not in ENDS:
            script = line(kind, 1, 512, 1) + '\n' + line('m', 0, 8) + '\n'
            ENDS[kind] = [name for name in named(program, 'malloc_call') if callgrind(program, script, name, True)][0].split('::')[-1]
        # The compiler keeps one of two functions that are equal, as a resize of TLSF and of Half-Fit.
        names = [name for name in names if name.endswith(ENDS[kind])] or names
    counts = (callgrind(program, '\n'.join(lines) + '\n', name, every) for name in names)
    return next(count for count in counts if count)


def scrambled(pages, page_bytes):
    """Objects of one block each in all pages; frees at random, each followed by a malloc, exchange blocks of the table; then all are freed."""
    r, many = random.Random(5), pages * page_bytes // 32
    out, live = [line('m', i, 8) for i in range(many)], list(range(many))
    for _ in range(many // 2):
        i, j = r.sample(live, 2)
        out += [line('f', i), line('f', j), line('m', i, 8), line('m', j, 8)]
    r.shuffle(live)
    return out + [line('f', i) for i in live]


def page_scripts(page_bytes, unit, scramble):
    """For each call, scripts whose last call may be the longest, on a manager of pages."""
    words = page_bytes // 8
    sizes = class_sizes(words, unit)
    half = max(s for s in sizes if 2 * s <= words)
    below = max(s for s in sizes if s < half)
    tiny = [line('m', i, 8) for i in range(words // 4)]
    pair = [line('m', 0, payload(half)), line('m', 1, payload(half)), line('m', 2, payload(half))]
    whole = [line('m', 0, payload(words)), line('w', 0, 3, 4096)]
    to = payload(sizes[-2])
    return {
        'malloc': [pair[:1], pair[:2], tiny[:1], tiny, tiny + [line('f', 7), line('m', 7, 8)], whole[:1]],
        'free': [scramble + pair + [line('f', 0)], scramble + pair[:2] + [line('f', 1)], scramble + whole + [line('f', 0)],
                 tiny + [line('m', words, 8), line('f', 0)], scramble + whole + [line('z', 0, to), line('f', 0)]],
        'resize': [scramble + whole + [line('z', 0, to)], scramble + whole + [line('z', 0, to), line('z', 0, payload(words))],
                   scramble + pair + [line('z', 0, payload(below))], scramble + whole + [line('z', 0, 0)],
                   scramble + [line('m', i, payload(below)) for i in range(3)] + [line('z', 0, payload(half))]],
        'write': [scramble + whole + [line('w', 0, at, 4096)] for at in (0, 3, 8)],
        'read': [scramble + whole + [line('r', 0, at, 4096)] for at in (0, 3, 8)],
    }


def block_scripts(page_bytes):
    """The same on a manager of blocks: the two mallocs split a block of a later group of lists, and leave one; the free joins two neighbours."""
    words = page_bytes // 8
    small = [line('m', i, n) for i, n in enumerate((120, 0, 120, 0, 0, 0))] + [line('f', i) for i in (0, 2, 4)] + [line('m', 6, 104)]
    many = -(-65536 // (words + 1)) + 1
    large = [line('m', i, payload(words)) for i in range(many)] + [line('m', many, 0)] + [line('f', i) for i in range(many)] + [line('m', 0, 0)]
    around = [line('m', i, n) for i, n in enumerate((16, 0, 16, payload(words), 16, 0, payload(words), 0))]
    around += [line('w', 3, 3, 4096)] + [line('f', i) for i in (0, 2, 4, 6, 3)]
    whole = [line('m', 0, payload(words)), line('w', 0, 3, 4096)]
    return {
        'malloc': [small, large],
        'free': [around, whole + [line('f', 0)]],
        'resize': [],
        'write': [whole + [line('w', 0, at, 4096)] for at in (0, 3, 8)],
        'read': [whole + [line('r', 0, at, 4096)] for at in (0, 3, 8)],
    }


def longest(program):
    print('| call | pages | ' + ' | '.join('`%s`' % name for name in MANAGERS) + ' |')
    print('|---|---|' + '---|' * len(MANAGERS))
    for call in ('malloc', 'free', 'resize', 'write', 'read'):
        for page_bytes, pages in ((16384, 16), (131072, 4)):
            cells = []
            for name, letter in MANAGERS.items():
                start = [line(letter, pages, page_bytes, 1)]
                if name in ('cf', 'nm'):
                    scripts = page_scripts(page_bytes, *((4, scrambled(pages, page_bytes)) if name == 'nm' else (1, [])))[call]
                else:
                    start = [line(letter, {16384: 80, 131072: 12}[page_bytes], page_bytes, 1)]
                    scripts = block_scripts(page_bytes)[call]
                counts = [calls(program, start + script, call + '_call')[0] for script in scripts]
                cells.append('{:,} ({:,})'.format(*max(counts)) if counts else 'refused')
            print('| `%s` | %d KiB | %s |' % (call, page_bytes // 1024, ' | '.join(cells)), flush=True)


def alone(program):
    for name, letter in MANAGERS.items():
        most = calls(program, [line(letter, 64, 16384, 1), line('g', 0, 100000)], 'generated::calls')[0]
        print('%-6s %12.0f' % (name, most[0] / 100000))


def long_objects(program):
    for call in ('w', 'r'):
        for page_bytes, pages in ((16384, 128), (131072, 16)):
            part = page_bytes - 8
            parts = [part] * (1000000 // part) + [1000000 % part]
            one = [line('c', pages, page_bytes, 1), line('m', 0, part)] + [line(call, 0, 0, n) for n in parts]
            each = sum(n for n, _ in calls(program, one, {'w': 'write_call', 'r': 'read_call'}[call], True))
            whole = calls(program, [line('l', pages, page_bytes, 1), line('m', 0, 1000000), line(call, 0, 0, 1000000)],
                          {'w': 'long_write', 'r': 'long_read'}[call])[0][0]
            print('%s %4d KiB   one page %.3f   long object %.3f' % (call, page_bytes // 1024, each / 1000000, whole / 1000000))


def slices(program):
    start, whole = [line('s', 8, 131072, 16)], [line('m', 0, 131064), line('f', 0)]
    page = calls(program, [line('c', 8, 131072, 1)] + whole, 'free_call')[0][0]
    print('a free of 16,384 words on the moving heap', page)
    print('the same on the sliced heap', calls(program, start + whole, 'sliced_free')[0][0])
    for many, name in ((1, 'a step'), (1023, 'the last step'), (1024, 'a step with no job')):
        print(name, calls(program, start + whole + [line('s')] * many, 'sliced_step')[0][0])
    print('the longest of 8,000 drawn calls', max(
        max(calls(program, start + [line('d', 0, 8000)], 'sliced_' + call, True))[0] for call in ('malloc', 'free', 'step')))


def frag(argv):
    for many in (1, 44800):
        script = ['heap 256 16384 1 65536'] + ['m %d 0' % i for i in range(many)] + ['f %d' % i for i in range(1, many, 2)]
        print(many // 2, count(argv, script + ['frag']) - count(argv, script))


argv = sys.argv[1:]
if not argv:
    sys.exit(__doc__)
MODES = {'alone': alone, 'longest': longest, 'long': long_objects, 'slices': slices}
if argv[1:2] and argv[1] in MODES:
    MODES[argv[1]](argv[0])
    sys.exit()
if argv[1:] == ['frag']:
    frag(argv[:1] + ['--manager', 'tlsf'])
    sys.exit()
if argv[1:] == ['bench']:
    for name in ('cf', 'nm', 'tlsf', 'half'):
        most, none = (count(argv + ['--manager', name, '--count', str(n)], []) for n in (100000, 0))
        print('%-6s %12.0f' % (name, (most - none) / 100000))
    sys.exit()
for name, make, n in (('mix', mix, 20000), ('hex', hexes, 400), ('churn', churn, 8000), ('tiny', tiny, 20000)):
    lines, n = make(n)
    each = (count(argv, lines) - count(argv, lines[:1])) / n
    print('%-6s %12.0f' % (name, each))
