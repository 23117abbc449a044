#!/usr/bin/env python3
"""edits.py [CRATE..] [--lanes N] [--anew] [--keep-logs FOLDER]: tries the wrong bodies in crates/*/edits, which the prover must refuse.

An edit is a file `crates/CRATE/edits/NAME.edit`, in the form of the few that stand in must-fail/ and that `rt ci` tries itself: a line
`file: src/lib.rt`, and pairs of lines `old: TEXT` and `new: TEXT`, where the old text stands once in that file.

The crates as they stand are proved first, by `rt ci` in a copy of them: what it has kept of them takes seconds. Over the libraries that it built
a crate's edits are tried in further copies, at most one a function in each, and of a copy only the functions that the edits stand in are checked, and
what these call. An edit is refused where the check says of its own function `not proved` or `no proof: expected answers`, for an
error within that function's lines or its proof files. That the function calls another one that isn't proved says nothing of it: it goes
into a later copy. An edit outside of all functions has a copy of its own, in which any function may be refused. A crate's first copy is checked
from nothing, and the later ones begin with what was proved in it.

Copies are checked side by side, on as many lanes as --lanes says, those of the dearest crates first, where the memory that each was seen to take
(measured.txt) leaves room. What passed is kept on this machine by the sum of all that was read, as rt keeps proofs; --anew tries all. Each edit that
isn't refused has a line that says why; the last line is `edits: N refused, M not`."""
import argparse
import glob
import hashlib
import os
import re
import shutil
import subprocess
import sys
import tempfile
import threading
from concurrent.futures import FIRST_COMPLETED, ThreadPoolExecutor, wait

HERE = os.path.dirname(os.path.abspath(__file__))
KIT = os.path.dirname(os.path.dirname(os.path.realpath(shutil.which('rt') or sys.exit('edits.py: no rt on the path'))))
KEPT = os.path.join(os.environ.get('XDG_CACHE_HOME') or os.path.expanduser('~/.cache'), 'humpipe-edits')
PARTS = ('src', 'specs', 'proofs')
FUNCTION = re.compile(r'^( *)(?:pub(?:\([\w:]+\))? )?(?:const )?(?:unsafe )?fn (\w+)', re.M)
OWNER = re.compile(r'^(?:pub(?:\(\w+\))? )?(?:unsafe )?(?:impl|trait)\b.*', re.M)
STATUS = re.compile(r'^(?:fn|closure) (\S+): ((?:not proved|no proof).*)$', re.M)
ERROR = re.compile(r'^(?:note: )?(?:\./)?((?:src|specs|proofs)/\S+?):(\d+):\d+: (.*)$', re.M)
# Refused by a goal of its own. (`no proof: it calls X, which is not proved` says nothing of a function.)
OWN = ('not proved', 'no proof: expected answers')


class Function:
    """A function of a crate: where it stands, and the last words of the name that a check gives it."""

    def __init__(self, path, name, head, lines):
        self.path, self.name, self.lines = path, name, lines
        self.owner, self.type = (type_of(head), type_told(head)) if head else ('', '')

    def told(self):
        """Its name as a check tells it, below the crate; of a method, which stands in its type's module, the end of that name."""
        return '::'.join([*([self.type] if self.type else module_of(self.path)), self.name])

    def key(self):
        return self.path, self.owner, self.name, self.lines[0]

    def is_named(self, told):
        """Whether a check means it by this name: crate::module::function, or crate::module::Type::function, where the module is that of the type, and a
        trait's name may stand behind the type's."""
        _, *modules = told.split('::')
        if modules[-1].split('{')[0] != self.name:
            return False
        if self.owner:
            return len(modules) > 1 and modules[-2].startswith(self.owner)
        module = module_of(self.path)
        return modules[: len(module)] == module

    def holds(self, told, path, line):
        """Whether an error at this place is one of this function, whose name in the check is `told`."""
        proofs = 'proofs/' + '/'.join(told.split('::')[1:]) + '/'
        return path.replace('/+', '/').startswith(proofs) or path == self.path and self.lines[0] <= line <= self.lines[1]


def module_of(path):
    return [it for it in re.sub(r'^src/|\.rt$', '', path).split('/') if it not in ('lib', 'main', 'mod')]


def function_at(path, text, at):
    """The function that holds this place of a text, or none."""
    heads = [it for it in FUNCTION.finditer(text) if it.start() <= at]
    if not heads or not path.startswith('src/'):
        return None
    head = heads[-1]
    end = re.compile(rf'^{head[1]}}}|^{head[1]}[^\n]*fn {head[2]}\b[^\n]*[;}}]$', re.M).search(text, head.start())
    if not end or end.end() < at:
        return None
    owner = [it for it in OWNER.finditer(text) if it.start() < head.start()] if head[1] else []
    first = text.count('\n', 0, head.start())
    above = text.split('\n')[:first]
    # (an error may be told at the attributes above it)
    while above and above[-1].lstrip().startswith(('#[', '//')):
        above.pop()
    return Function(path, head[2], owner and owner[-1][0], (len(above) + 1, text.count('\n', 0, end.end()) + 1))


def type_of(head):
    """`Vec` of `impl<T> Drop for Vec<T> {`, and a trait's own name."""
    head = re.sub(r'\bwhere\b.*|\{.*', '', head)
    head = head.split(' for ')[-1] if ' for ' in head else re.sub(r'.*?\b(?:impl|trait)\b(?:<[^>]*>)?', '', head, count=1)
    return re.split(r'[<:\s]', head.strip().lstrip('&').strip())[0].split('::')[-1]


def type_told(head):
    """`VecFromText` of `impl<T> From<Text> for Vec<T> {`: the type and the trait, without the parameters of the impl, as a check tells them."""
    parameters = re.search(r'\bimpl<([^>]*)>', head)
    own = re.findall(r'(?:^|,)\s*(?:const )?(\w+)', parameters[1]) if parameters else []
    head = re.sub(r'\bwhere\b.*|\{.*|:\s.*', '', re.sub(r'.*?\b(?:impl|trait)\b(?:<[^>]*>)?', '', head, count=1))
    trait, _, type = head.rpartition(' for ')
    words = [it for it in re.findall(r"(?<!['\w])\w+\b(?!::)", f'{type} {trait}') if it not in own]
    return ''.join(words[:-1] if trait.strip() in ('Drop', 'Copy') else words)


class Edit:
    """A wrong body: the pairs of texts by which it changes files of a crate, and the functions that it changes."""

    def __init__(self, crate, file):
        self.crate, self.name, self.why = crate, os.path.basename(file)[: -len('.edit')], None
        self.pairs, self.functions = list(pairs_of(file)), []
        texts = {}
        for path, old, new in self.pairs:
            text = texts.get(path) or read(f'{crate.folder}/{path}')
            if text.count(old) != 1:
                self.why = f'BAD EDIT: its old text is in {path} {text.count(old)} times, and not once'
                return
            place = text.index(old) + len(os.path.commonprefix([old, new]))
            self.functions.append(function_at(path, text, place))
            texts[path] = text.replace(old, new)
        if not self.pairs or all(text == read(f'{crate.folder}/{path}') for path, text in texts.items()):
            self.why = 'BAD EDIT: it changes nothing'

    def keys(self):
        """The functions by which it takes its place in a copy; none, where it stands outside of all and wants a copy of its own."""
        return set() if None in self.functions else {it.key() for it in self.functions}

    def only(self):
        """What is checked of a copy with it: the functions that it stands in, or else the modules; the whole crate, if that is none."""
        modules = {'::'.join(module_of(path)) for path, _, _ in self.pairs if path.startswith('src/')}
        return [it.told() for it in self.functions if it] or sorted(modules - {''})

    def apply(self, folder):
        for path, old, new in self.pairs:
            text = read(f'{folder}/{path}')
            if text.count(old) != 1:
                return False
            write(f'{folder}/{path}', text.replace(old, new))
        return True

    def is_refused(self, log, folder):
        """Whether this log of a check refuses one of its functions for an error of that function's own."""
        statuses = [(name, said) for name, said in STATUS.findall(log) if said.startswith(OWN)]
        errors = [(path, int(line)) for path, line, _ in ERROR.findall(log)]
        if not self.keys():
            return bool(statuses)
        for function in self.functions:
            now = moved(function, read(f'{folder}/{function.path}'))
            for name, _ in statuses:
                if now.is_named(name) and any(now.holds(name, *it) for it in errors):
                    return True
        return False


def moved(function, text):
    """The function where it stands in an edited text, in which edits of one line each have moved no line."""
    found = [it for it in FUNCTION.finditer(text) if it[2] == function.name]
    places = [function_at(function.path, text, it.end()) for it in found]
    places = [it for it in places if it and it.owner == function.owner]
    return min(places, key=lambda it: abs(it.lines[0] - function.lines[0]), default=function)


def pairs_of(file):
    path, old = '', ''
    for line in read(file).split('\n'):
        if line.startswith('file: '):
            path = line[len('file: ') :].strip()
        elif line.startswith('old: '):
            old = line[len('old: ') :]
        elif line.startswith('new:'):
            yield path, old, re.sub(r'\A ', '', line[len('new:') :])


class Crate:
    """A crate of the repository: the libraries that it uses, and the crates below it, lowest first."""

    def __init__(self, root, name, uses, below):
        self.root, self.name, self.uses, self.below, self.folder = root, name, {'std', *uses}, below, f'{root}/crates/{name}'
        self.top = 'src/main.rt' if os.path.exists(f'{self.folder}/src/main.rt') else 'src/lib.rt'

    def edits(self):
        return [Edit(self, it) for it in sorted(glob.glob(f'{self.folder}/edits/*.edit'))]

    def files(self):
        for part in PARTS:
            for folder, folders, names in os.walk(f'{self.folder}/{part}'):
                folders.sort()
                yield from (f'{folder}/{name}' for name in sorted(names))

    def sum(self, kit):
        """A sum of all that a try of its edits reads."""
        total = hashlib.sha256(f'{kit} {read(os.path.abspath(__file__))}'.encode())
        for crate in [*self.below, self]:
            for file in [*crate.files(), *(sorted(glob.glob(f'{self.folder}/edits/*.edit')) if crate is self else [])]:
                total.update(f'{os.path.relpath(file, self.root)}\n{read(file)}\n'.encode())
        return total.hexdigest()


class Room:
    """A copy of crates and those below them, in which `rt ci` builds their libraries, or takes what it kept of them on this machine."""

    def __init__(self, root, crates):
        self.folder = tempfile.mkdtemp(prefix='humpipe-edits-room-')
        os.mkdir(f'{self.folder}/.git')
        shutil.copyfile(f'{root}/HANDLES', f'{self.folder}/HANDLES')
        names = {it.name for crate in crates for it in [*crate.below, crate]}
        lines = [it for it in read(f'{root}/crates.txt').splitlines(True) if it.split(':')[0].split()[:1] in [[name] for name in names]]
        write(f'{self.folder}/crates.txt', ''.join(lines))
        for name in names:
            shutil.copytree(f'{root}/crates/{name}', f'{self.folder}/crates/{name}', ignore=shutil.ignore_patterns('out', 'must-fail', 'edits'))

    def prove(self, lanes):
        """The names of the crates that are proved as they stand, and what rt said."""
        how = {'cwd': self.folder, 'env': {**os.environ, 'RT_JOBS': str(lanes)}, 'stdin': subprocess.DEVNULL, 'stdout': subprocess.PIPE}
        said = subprocess.run(['rt', 'ci'], stderr=subprocess.STDOUT, text=True, errors='replace', check=False, **how).stdout
        return set(re.findall(r'^rt: (\w+) (?:proved$|is kept: )', said, re.M)), said

    def check(self, crate, folder, begun, only=()):
        """The status of a check of the crate in this folder over these libraries, what it said, the most memory that it took, in MB, and its processor
        seconds. What is proved is kept in the folder `begun`."""
        words = ['--crate-name', crate.name, crate.top, '-L', f'dependency={KIT}/rlibs', '--incremental', begun, '--jobs', '1', '--links', f'{crate.name}=']
        words += ['--antt-project', f'{KIT}/rattle/logic/antt-project.json', '--logic-built', f'{KIT}/logic_built']
        below = {it.name: f'{self.folder}/crates/{it.name}/out/rlib' for it in crate.below}
        for it in sorted(crate.uses):
            words += ['--extern', f'{it}={below.get(it, KIT + "/rlibs")}/{it}.rlib']
        for it in below.values():
            words += ['-L', f'dependency={it}']
        for it in only:
            words += ['--only', it]
        with tempfile.TemporaryFile('w+', errors='replace') as said:
            how = {'cwd': folder, 'stdin': subprocess.DEVNULL, 'stdout': said, 'stderr': subprocess.STDOUT}
            ran = subprocess.Popen([f'{KIT}/bin/rattle', 'check', *words], **how)
            _, status, usage = os.wait4(ran.pid, 0)
            ran.returncode = os.waitstatus_to_exitcode(status) if hasattr(os, 'waitstatus_to_exitcode') else status >> 8
            said.seek(0)
            log = re.sub(r'^so far: .*\n', '', said.read(), flags=re.M)
        return ran.returncode, log, (usage.ru_maxrss // 1024, round(usage.ru_utime + usage.ru_stime))

    def clear(self):
        shutil.rmtree(self.folder, ignore_errors=True)


def linked(folder, to):
    """Copies what checks kept. What was proved stands in files that a check replaces and never writes into: these get a second name."""

    def copy(one, other):
        try:
            (os.link if one.endswith('.oantt') else shutil.copy2)(one, other)
        except OSError:
            shutil.copy2(one, other)

    if os.path.isdir(folder):
        shutil.copytree(folder, to, copy_function=copy)


def copies_of(edits):
    """The edits by the copies that they go into, as few as can be: at most one a function in each; and one alone that stands in none."""
    copies = []
    for edit in sorted(edits, key=lambda it: not it.keys()):
        fitting = (it for it in copies if edit.keys() and all(other.keys() and not other.keys() & edit.keys() for other in it))
        copy = next(fitting, None)
        if copy is None:
            copies.append(copy := [])
        copy.append(edit)
    return copies


class Trial:
    """The trial of a crate's edits: what is to be tried, and the folder of what its first copy proved."""

    def __init__(self, crate, edits, room, options):
        self.crate, self.edits, self.room, self.options = crate, edits, room, options
        self.begun, self.lock, self.copies, self.seconds = tempfile.mkdtemp(prefix=f'humpipe-edits-{crate.name}-'), threading.Lock(), 0, 0
        self.under_way = 0

    def first(self):
        """The copies that come behind the first."""
        copies = copies_of([it for it in self.edits if not it.why])
        if not copies:
            return []
        again = self.tried(copies[0], f'{self.begun}/kept')
        if len(again) != 1:
            return again + copies[1:]
        return copies_of([it for copy in again + copies[1:] for it in copy])

    def later(self, edits):
        with tempfile.TemporaryDirectory(prefix=f'humpipe-edits-{self.crate.name}-') as over:
            linked(f'{self.begun}/kept', f'{over}/kept')
            return self.tried(edits, f'{over}/kept')

    def tried(self, edits, kept):
        """Checks one copy with these edits, and gives the copies that those want which it doesn't refuse. Where one alone isn't, says why."""
        with tempfile.TemporaryDirectory(prefix=f'humpipe-edits-{self.crate.name}-') as folder:
            for part in (it for it in PARTS if os.path.isdir(f'{self.crate.folder}/{it}')):
                shutil.copytree(f'{self.crate.folder}/{part}', f'{folder}/{part}')
            for it in edits:
                it.apply(folder)
            only = sorted({name for it in edits for name in it.only()})
            refused, status, log = self.check(edits, folder, kept, only)
            if len(edits) == 1 and not refused and only:
                # (what it does beyond its own function, or where a name fits none)
                refused, status, log = self.check(edits, folder, kept, ())
        left = [it for it in edits if it not in refused]
        if len(edits) == 1:
            edits[0].why = None if refused else told_of(status, log)
            return []
        # (where none is refused, one of them may not compile, and hides the others)
        return [left] if refused and left else [[it] for it in left]

    def check(self, edits, folder, kept, only):
        status, log, (_, seconds) = self.room.check(self.crate, folder, kept, only)
        with self.lock:
            self.copies, self.seconds = self.copies + 1, self.seconds + seconds
        if self.options.keep_logs:
            write(f'{self.options.keep_logs}/{self.crate.name}-{edits[0].name}.log', log)
        return [it for it in edits if status == 1 and it.is_refused(log, folder)], status, log

    def clear(self):
        shutil.rmtree(self.begun, ignore_errors=True)


def told_of(status, log):
    statuses = STATUS.findall(log)
    if status == 0:
        return 'NOT REFUSED: the crate is still proved with it'
    if statuses:
        return 'NOT REFUSED in its own function, but in ' + ', '.join(name for name, _ in statuses[:3])
    last = [it for it in log.strip().split('\n') if 'error' in it][:1] or log.strip().split('\n')[-1:]
    return f'BAD EDIT: it does not compile, or its check ended with status {status}: {last[0][:200] if last else ""}'


class Lanes:
    """Runs tasks side by side, as many as there are lanes and as memory allows, those of the most seconds first. A task is the name of a crate, and a call
    that gives further tasks, which come before others."""

    def __init__(self, lanes, measured):
        self.lanes, self.measured, self.memory = lanes, measured, 0.9 * available()

    def run(self, tasks):
        left, running = sorted(tasks, key=lambda it: -self.takes(it)[1]), {}
        with ThreadPoolExecutor(self.lanes) as pool:
            while left or running:
                for task in [*left]:
                    used = sum(self.takes(it)[0] for it in running.values())
                    if len(running) < self.lanes and (not running or used + self.takes(task)[0] <= self.memory):
                        left.remove(task)
                        running[pool.submit(task[1])] = task
                for it in wait(running, return_when=FIRST_COMPLETED).done:
                    running.pop(it)
                    left[:0] = it.result()

    def takes(self, task):
        """The memory and the seconds of a check of the task's crate from nothing."""
        return self.measured.get(task[0], max(self.measured.values(), default=(3_000, 300)))


def available():
    """The memory that is there, in MB."""
    with open('/proc/meminfo', encoding='ascii') as it:
        return int(re.search(r'MemAvailable:\s+(\d+)', it.read())[1]) // 1024


def read(file):
    with open(file, encoding='utf-8', errors='replace') as it:
        return it.read()


def write(file, text):
    os.makedirs(os.path.dirname(os.path.abspath(file)), exist_ok=True)
    with open(file, 'w', encoding='utf-8') as it:
        it.write(text)


def crates_of(root):
    """The crates of the repository by their names, lowest first."""
    lines = dict(it.split('#')[0].split(':') for it in read(f'{root}/crates.txt').splitlines() if ':' in it)
    uses = {name.split()[0]: deps.split() for name, deps in lines.items()}
    crates = {}

    def add(name):
        if name not in crates:
            below = []
            for it in (it for it in uses[name] if it in uses):
                below += [other for other in [*add(it).below, crates[it]] if other not in below]
            crates[name] = Crate(root, name, uses[name], below)
        return crates[name]

    for name in uses:
        add(name)
    return crates


class Run:
    """A run over crates: what is told of each edit."""

    def __init__(self, root, names, options):
        self.root, self.crates, self.options, self.printing = root, crates_of(root), options, threading.Lock()
        self.kit = subprocess.run(['rt', 'version'], capture_output=True, text=True, check=True).stdout
        wanted = [self.crates[it] for it in names or self.crates]
        self.edits = {it.name: it.edits() for it in wanted}
        self.sums = {name: self.crates[name].sum(self.kit) for name, edits in self.edits.items() if edits}
        self.measured = {}

    def is_kept(self, name):
        return not self.options.anew and os.path.exists(f'{KEPT}/{self.sums[name]}')

    def say(self, text):
        with self.printing:
            print(text, flush=True)

    def proved(self, room, names):
        """Those of these crates that are proved as they stand."""
        proved, said = room.prove(self.options.lanes)
        for name in (it for it in names if it not in proved):
            self.say(f'{name} is not proved as it stands, so its edits were not tried:\n' + '\n'.join(said.strip().split('\n')[-12:]))
            for it in self.edits[name]:
                it.why = it.why or 'NOT TRIED: its crate is not proved'
        return [it for it in names if it in proved]

    def task(self, trial, call):
        """A task for a copy, behind which come those that it gives, and behind the last of a crate what is told of it."""
        def run():
            copies = call()
            with trial.lock:
                trial.under_way += len(copies) - 1
                is_last = not trial.under_way
            if is_last:
                self.tell(trial)
            return [self.task(trial, lambda it=it: trial.later(it)) for it in copies]

        return trial.crate.name, run

    def tell(self, trial):
        trial.clear()
        name, lost = trial.crate.name, [it for it in trial.edits if it.why]
        number = len(trial.edits)
        self.say(f'{name}: {number - len(lost)} of {number} edits refused, in {trial.copies} checks, {trial.seconds} s of a processor')
        for it in lost:
            self.say(f'{name}/{it.name}: {it.why}')
        if not lost:
            os.makedirs(KEPT, exist_ok=True)
            write(f'{KEPT}/{self.sums[name]}', ' '.join(it.name for it in trial.edits) + '\n')

    def measure(self, room, crate):
        """Sees what a check of the crate from nothing takes."""
        with tempfile.TemporaryDirectory(prefix='humpipe-edits-') as kept:
            _, _, self.measured[crate.name] = room.check(crate, f'{room.folder}/crates/{crate.name}', f'{kept}/kept')
        return []

    def run(self, measured):
        names = [it for it in self.sums if not self.is_kept(it)]
        for name in (it for it in self.sums if it not in names):
            self.say(f'{name}: {len(self.edits[name])} edits were refused by an earlier run on this machine, over the same files')
        room, trials = Room(self.root, [self.crates[it] for it in names]), []
        try:
            tasks = []
            for crate in (self.crates[it] for it in (self.proved(room, names) if names else [])):
                trials.append(Trial(crate, self.edits[crate.name], room, self.options))
                trials[-1].under_way = 1
                tasks.append(self.task(trials[-1], trials[-1].first))
                if self.options.measure:
                    tasks.append((crate.name, lambda it=crate: self.measure(room, it)))
            Lanes(self.options.lanes, measured).run(tasks)
        finally:
            for it in [room, *trials]:
                it.clear()
        lost = sum(1 for edits in self.edits.values() for it in edits if it.why)
        number = sum(len(it) for it in self.edits.values())
        print(f'edits: {number - lost} refused, {lost} not')
        return lost


MEASURED = f'{HERE}/measured.txt'


def measured():
    """By each crate the memory and the processor seconds that its check from nothing was seen to take."""
    lines = [it.split() for it in read(MEASURED).splitlines() if it and not it.startswith('#')] if os.path.exists(MEASURED) else []
    return {name: (int(memory), int(seconds)) for name, memory, seconds in lines}


def main():
    parser = argparse.ArgumentParser(description=__doc__.split('\n')[0])
    parser.add_argument('crates', nargs='*', metavar='CRATE')
    parser.add_argument('--root', default=os.path.dirname(HERE), help=argparse.SUPPRESS)
    parser.add_argument('--lanes', type=int, default=len(os.sched_getaffinity(0)))
    parser.add_argument('--anew', action='store_true')
    parser.add_argument('--keep-logs', metavar='FOLDER')
    parser.add_argument('--measure', action='store_true', help='checks each crate as it stands too, and writes what that took into measured.txt')
    options = parser.parse_args()
    run = Run(options.root, options.crates, options)
    known = measured()
    lost = run.run(known)
    if options.measure:
        lines = [f'{name} {memory} {seconds}' for name, (memory, seconds) in sorted({**known, **run.measured}.items())]
        write(MEASURED, '\n'.join(['# a crate, the MB that a check of it from nothing takes, and the seconds of one processor', *lines, '']))
    sys.exit(1 if lost else 0)


if __name__ == '__main__':
    main()
