#!/usr/bin/env python3
"""run.py [WORD ..]: processor seconds, elapsed seconds and peak memory of humpipe beside other programs, on the same scores in the
same run. With words, only what has one of them in its title.

The scores are made once, in bench/data. The programs run in turn, five times each, and the least times of each count: those of the
processor are user's and system's together. A program that isn't on the machine is left out, and told; so is one that writes other bytes than the first.
Of a shell's pipe the times and the memory of all its processes are added up. PROGRAM names another humpipe than ./humpipe, BENCH_MEGABYTES other sizes
than 50."""
import hashlib
import os
import shlex
import shutil
import subprocess
import sys
import time

HERE = os.path.dirname(os.path.abspath(__file__))
TOP = os.path.dirname(HERE)
DATA = os.path.join(HERE, 'data')
ROUNDS = 5
SIZES = [int(size) for size in os.environ.get('BENCH_MEGABYTES', '50').split()]
PROGRAM = os.path.abspath(os.environ.get('PROGRAM') or os.path.join(TOP, 'humpipe'))

# the columns as they stand in each line; nothing is followed
EXTRACT = 'BEGIN { FS = OFS = "\\t" } /^!!/ { print; next } { print $1, $3 }'
DITTO = ('BEGIN { FS = OFS = "\\t" } /^[!*]/ { print; next } '
         '{ for (i = 1; i <= NF; i++) if ($i == ".") $i = (i in last) ? last[i] : "."; else last[i] = $i; print }')

# five commands in a row, each with a program in awk
CHAIN = [('rid -G', ['!/^!!/']), ('extract -f 1,3', [EXTRACT]), ('ditto', [DITTO]),
         ('semits -x', ['-f', os.path.join(HERE, 'semits.awk')]), ('rid -L', ['!/^![^!]/'])]


def processes(pid):
    """A process and those that it started."""
    try:
        with open(f'/proc/{pid}/task/{pid}/children') as children:
            return [pid] + [found for child in children.read().split() for found in processes(int(child))]
    except (FileNotFoundError, ProcessLookupError):
        return [pid]


def peak_of(pid):
    """The peak memory of a running program and of those that it started in KiB, or 0 once it has ended."""
    peak = 0
    for process in processes(pid):
        try:
            with open(f'/proc/{process}/status') as status:
                peak += sum(int(line.split()[1]) for line in status if line.startswith('VmHWM:'))
        except (FileNotFoundError, ProcessLookupError):
            pass
    return peak


def measured(words):
    """The processor's seconds and the elapsed seconds of one run, the peak memory in MiB, and a sum of what was written. The output goes to a file."""
    peak = 0
    with open(os.path.join(DATA, 'out'), 'wb') as out:
        begin = time.monotonic()
        program = subprocess.Popen(words, stdout=out)
        time.sleep(0.005)
        while True:
            peak = max(peak, peak_of(program.pid))
            pid, status, usage = os.wait4(program.pid, os.WNOHANG)
            if pid:
                break
            time.sleep(0.005)
        elapsed = time.monotonic() - begin
        program.returncode = os.waitstatus_to_exitcode(status)
    if program.returncode != 0:
        sys.exit(f'{words[0]} ended with status {program.returncode}')
    with open(os.path.join(DATA, 'out'), 'rb') as out:
        written = hashlib.file_digest(out, 'sha1').digest() if hasattr(hashlib, 'file_digest') else hashlib.sha1(out.read()).digest()
    return usage.ru_utime + usage.ru_stime, elapsed, peak / 1024, written


def best_of(programs):
    """For each program the least seconds of the processor and of the clock of its runs, its greatest peak, and what it wrote. They run in turn, so that
    what else the machine does meets all of them."""
    runs = [(float('inf'), float('inf'), 0, b'')] * len(programs)
    for _ in range(ROUNDS):
        for i, (_name, words) in enumerate(programs):
            seconds, elapsed, peak, written = measured(words)
            runs[i] = (min(runs[i][0], seconds), min(runs[i][1], elapsed), max(runs[i][2], peak), written)
    return runs


def show(title, programs):
    """The figures of programs, each by its name and its words; the first is set against the others."""
    if sys.argv[1:] and not any(word in title for word in sys.argv[1:]):
        return
    there = [(name, words) for name, words in programs if shutil.which(words[0])]
    print(title)
    for name, words in programs:
        if (name, words) not in there:
            print(f'  {name:24} left out: {words[0]} is not there')
    runs = best_of(there)
    for (name, _words), (seconds, elapsed, peak, written) in zip(there, runs):
        ratio = f'  {there[0][0]} takes {runs[0][0] / seconds:.2f} times as long' if seconds > 0 and name != there[0][0] else ''
        other = '' if written == runs[0][3] else '  (other bytes)'
        print(f'  {name:24} {seconds:6.2f} s {elapsed:6.2f} s elapsed {peak:6.1f} MiB{ratio}{other}', flush=True)


def plan(name, text, *options):
    """The words that run a plan, which is put into a file of this name."""
    path = os.path.join(DATA, name + '.hpl')
    with open(path, 'w') as out:
        out.write(text + '\n')
    return [PROGRAM, *options, path]


def pipe(*commands):
    """The words that run commands in a shell's pipe."""
    return ['bash', '-c', ' | '.join(shlex.join(command) for command in commands)]


def awk(name, score):
    """The program in awk of this name beside this one, with its words for a score."""
    return ('mawk', ['mawk', '-f', os.path.join(HERE, name + '.awk'), score])


def rust(name, score):
    """The program in Rust of this name beside this one, with its words for a score, as a list."""
    if not shutil.which('rustc'):
        return [(f'{name}.rs', ['rustc'])]
    binary = os.path.join(DATA, name)
    source, shared = (os.path.join(HERE, file) for file in (name + '.rs', 'lines.rs'))
    if not os.path.exists(binary) or os.path.getmtime(binary) < max(map(os.path.getmtime, (source, shared))):
        subprocess.run(['rustc', '-O', '-o', binary, source], check=True)
    return [(f'{name}.rs', [binary, score])]


def tasks(score, steady):
    """Each command with the score that it reads and the programs beside it."""
    return [
        ('rid -G', score, [('grep -v', ['grep', '-v', '^!!', score]), ('mawk', ['mawk', '!/^!!/', score])] + rust('filter', score)),
        ('extract -f 1,3', score, [('cut', ['cut', '-f', '1,3', score]), ('mawk', ['mawk', EXTRACT, score])] + rust('extract', score) + rust('extract_bytes', score)),
        ('ditto', score, [('mawk', ['mawk', DITTO, score])] + rust('ditto', score) + rust('ditto_bytes', score)),
        ('semits -x', score, [awk('semits', score)] + rust('semits', score) + rust('semits_bytes', score)),
        ('trans -d 1 -c 2', score, [awk('trans', score)]),
        ('recip', score, [awk('recip', score)]),
        ('mint', score, [awk('mint', score)]),
        ("cleave -i '**kern' -o '**chord'", score, rust('cleave', score)),
        ("context -n 3 -o '^='", score, rust('context', score)),
        ("yank -n '^=' -r 100-$", score, [awk('yank', score)]),
        ('timebase -t 16', steady, rust('timebase', steady)),
    ]


def made_score(size, *kind):
    score = os.path.join(DATA, '_'.join((f'score{size}', *kind)) + '.krn')
    if not os.path.exists(score):
        subprocess.run([sys.executable, os.path.join(HERE, 'make_score.py'), str(size), score, *kind], check=True)
    return score


def commands(size):
    """Each command alone."""
    for command, score, peers in tasks(made_score(size), made_score(size, 'steady')):
        show(f'{size} MB, {command}', [('humpipe', plan('plan', f'out: read {score} | {command}'))] + peers)


def chain(size):
    """Five commands in one plan, beside five processes in a pipe."""
    score = made_score(size)
    whole = f'out: read {score} | ' + ' | '.join(command for command, _program in CHAIN)
    steps = [plan(f'step{k}', f'out: read {"/dev/stdin" if k else score} | {command}')
             for k, (command, _program) in enumerate(CHAIN)]
    programs = [['mawk', *program] for _command, program in CHAIN]
    programs[0].append(score)
    show(f'{size} MB, five commands in a chain', [
        ('humpipe', plan('chain', whole)),
        ('humpipe --link 1', plan('chain', whole, '--link', '1')),
        ('humpipe --link 4096', plan('chain', whole, '--link', '4096')),
        ('five humpipe in a pipe', pipe(*steps)),
        ('five mawk in a pipe', pipe(*programs)),
    ])


def stages(size):
    """What a further stage costs that lets all pass, with its link: the same command once, and several times in a row."""
    score = made_score(size)
    show(f'{size} MB, rid -G in a row', [
        (f'{count} in a row' if count > 1 else 'once', plan(f'row{count}', f'out: read {score}' + ' | rid -G' * count))
        for count in (1, 2, 5, 9)
    ])


def tree(size):
    """A column of each of four scores, side by side."""
    score = made_score(size)
    branches = [f'{name}: read {score} | extract -f {k}' for k, name in enumerate('abcd', 1)]
    text = '\n'.join(branches + ['out: assemble a b c d'])
    cuts = ' '.join(f'<(cut -f {k} {shlex.quote(score)})' for k in range(1, 5))
    show(f'{size} MB, a tree of four scores', [
        ('humpipe', plan('tree', text)),
        ('humpipe --link 1', plan('tree', text, '--link', '1')),
        ('humpipe --link 4096', plan('tree', text, '--link', '4096')),
        ('paste of four cut', ['bash', '-c', f'paste {cuts}']),
    ])


def side_by_side(size):
    """A whole score beside itself."""
    score = made_score(size)
    show(f'{size} MB, a score beside itself', [
        ('humpipe', plan('beside', f'a: read {score}\nb: read {score}\nout: assemble a b')),
        ('paste', ['paste', score, score]),
    ])


def lengths():
    """Lines of so many bytes, at the edges of what is looked at in one go."""
    columns = 4
    for length in (60, 63, 64, 70, 100, 127, 128, 130):
        score = os.path.join(DATA, f'lines{length}.krn')
        # four tokens, and the tabs between them
        sizes = [(length - columns + 1 + k) // columns for k in range(columns)]
        with open(score, 'w') as out:
            row = lambda token: '\t'.join([token] * columns) + '\n'
            out.write(row('**x') + ('\t'.join('4c' + 'x' * (many - 2) for many in sizes) + '\n') * (20_000_000 // length) + row('*-'))
        show(f'20 MB, lines of {length} bytes, rid -G', [('humpipe', plan('plan', f'out: read {score} | rid -G')), ('grep -v', ['grep', '-v', '^!!', score])])


def starts():
    """A thousand runs over a score of a hundred lines."""
    score = os.path.join(DATA, 'short.krn')
    with open(score, 'w') as out:
        out.write('**kern\n' + '4c\n' * 98 + '*-\n')
    loop = lambda *words: ['sh', '-c', f'for k in $(seq 1000); do {shlex.join(words)}; done']
    show('1,000 runs over a hundred lines', [
        ('humpipe, rid -G', loop(*plan('short', f'out: read {score} | rid -G'))),
        ('cat', loop('cat', score)), ('mawk', loop('mawk', '!/^!!/', score)), ('grep -v', loop('grep', '-v', '^!!', score)),
    ])


def waiting():
    """Scores of which context holds many records."""
    for lines in (16_000, 32_000, 65_000):
        score = os.path.join(DATA, f'open{lines}.krn')
        with open(score, 'w') as out:
            out.write('**x\n' + 'a\n' * lines + '*-\n')
        show(f'{lines} lines of a, context -b a -e b', [('humpipe', plan('plan', f'out: read {score} | context -b a -e b'))])
    score = os.path.join(DATA, 'closed.krn')
    with open(score, 'w') as out:
        out.write('**x\n' + 'a\n' * 16_000 + 'b\n*-\n')
    show('16000 lines of a and one of b, context -b a -e b', [('humpipe', plan('plan', f'out: read {score} | context -b a -e b'))])
    width = 4_000
    score = os.path.join(DATA, 'wide.krn')
    with open(score, 'w') as out:
        row = lambda token: '\t'.join([token] * width) + '\n'
        out.write(row('**x') + (row('*') + row('a')) * 200 + row('*-'))
    show(f'200 times * and data of {width} columns, context -n 3', [('humpipe', plan('plan', f'out: read {score} | context -n 3'))])


def main():
    os.makedirs(DATA, exist_ok=True)
    os.chdir(TOP)
    for size in SIZES:
        commands(size)
        chain(size)
        stages(size)
        tree(size)
        side_by_side(size)
    lengths()
    starts()
    waiting()


main()
