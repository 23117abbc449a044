#!/usr/bin/env python3
"""check.py [--whole] PROGRAM: makes a release of PROGRAM twice, compares the two, installs it in fresh folders, and runs there the first pipeline of
the README and `man`, with no `rt` on the path.

The tarball is unpacked, and installed by its install.sh, which then takes all away again; the wheel is installed in a fresh venv, without a network; the
Debian package is unpacked by dpkg -x. With --whole it is also installed by dpkg --root and, where debootstrap can make one, in a new Debian, where nothing
is left once it is purged; lintian reads it; and the files in dist must be those that were made.
What needs a program that isn't on the machine is left out, and told. The last line is `N passed, M failed`; status 1 if something failed."""
import contextlib
import glob
import json
import os
import re
import shutil
import subprocess
import sys
import tarfile
import tempfile
import xml.etree.ElementTree
import zipfile

HERE = os.path.dirname(os.path.abspath(__file__))
TOP = os.path.dirname(HERE)
PATH = '/usr/sbin:/usr/bin:/sbin:/bin'

sys.path.append(os.path.join(TOP, 'docs'))
from transcripts import blocks, is_shown, steps  # noqa: E402


def run(*words, **more):
    """A run on a plain path: its status, and what it writes and tells."""
    surroundings = {'PATH': PATH, 'LC_ALL': 'C.UTF-8', 'HOME': '/nonexistent', **more.pop('env', {})}
    ended = subprocess.run(words, env=surroundings, stdin=subprocess.DEVNULL, stdout=subprocess.PIPE, stderr=subprocess.STDOUT, **more)
    return ended.returncode, ended.stdout.decode('utf-8', 'replace')


def has(program):
    return shutil.which(program, path=PATH) is not None


class Checks:
    """What has passed and failed so far."""

    def __init__(self):
        self.passed = self.failed = 0

    def tell(self, what, is_right, text=''):
        if is_right:
            self.passed += 1
        else:
            self.failed += 1
            print(f'{what}:\n    ' + text.strip().replace('\n', '\n    '))

    def ends_well(self, what, *words, **more):
        status, text = run(*words, **more)
        self.tell(what, status == 0, text or f'status {status}')
        return text

    def leave_out(self, what, why):
        print(f'left out: {what} ({why})')


def first_pipeline():
    """The first transcript of the README: the files that it shows, a command line, and what this writes."""
    with open(os.path.join(TOP, 'README.md'), encoding='utf-8') as page:
        lines = page.read().split('\n')
    first, block = next(found for found in blocks(lines) if found[1][0].startswith('$ '))
    files, runs = {}, []
    for _, command, shown in steps(first, block):
        words = command.split()
        if words[0] == 'cat':
            files[words[1]] = ''.join(line + '\n' for line in shown)
        else:
            runs.append((command, shown))
    return files, runs


def runs_first_pipeline(checks, what, folder, root=None):
    """Runs it in a folder that has the program as `humpipe`, and the examples; below another root, if one is given."""
    files, runs = first_pipeline()
    if not os.path.exists(os.path.join(folder, 'examples')):
        shutil.copytree(os.path.join(TOP, 'examples'), os.path.join(folder, 'examples'))
    for name, text in files.items():
        with open(os.path.join(folder, name), 'w', encoding='utf-8') as file:
            file.write(text)
    for command, shown in runs:
        words = ['sh', '-c', command]
        if root:
            words = ['chroot', root, 'sh', '-c', f'cd /{os.path.relpath(folder, root)} && {command}']
        _, text = run(*words, cwd=folder)
        checks.tell(f'{what}: {command}', is_shown(shown, text.split('\n')[:-1]), text)


def shows_page(checks, what, *words):
    """Whether `man` shows the page, with the version in its footer."""
    if not has('man'):
        checks.leave_out(f'{what}: man', 'no man')
        return
    _, text = run(*words, env={'MANPAGER': 'cat', 'MANWIDTH': '80'})
    checks.tell(f'{what}: man', 'SYNOPSIS' in text and f'humpipe {version()}' in text.strip().split('\n')[-1], text[-2000:])


def version():
    with open(os.path.join(TOP, 'VERSION'), encoding='utf-8') as file:
        return file.read().strip()


def linked(folder, program):
    """A folder in which the program is `humpipe`."""
    os.makedirs(folder)
    os.symlink(program, os.path.join(folder, 'humpipe'))
    return folder


def same_bytes(checks, program, room):
    """Makes the release twice, in two folders; gives the first."""
    made = []
    for name in 'first', 'second':
        folder = os.path.join(room, name)
        checks.ends_well(f'dist.sh ({name})', os.path.join(HERE, 'dist.sh'), program, folder)
        made.append(folder)
    names = sorted(os.listdir(made[0]))
    for name in names:
        status, text = run('cmp', *(os.path.join(folder, name) for folder in made))
        checks.tell(f'{name}, made twice', status == 0, text)
    checks.ends_well('SHA256SUMS', 'sha256sum', '-c', 'SHA256SUMS', cwd=made[0])
    return made[0]


@contextlib.contextmanager
def planted():
    """Files among the sources that git doesn't track."""
    places = [os.path.join(TOP, place, 'planted-untracked.py') for place in ('python/humpipe', 'examples', 'docs', 'editors/vscode')]
    for place in places:
        open(place, 'x').close()
    try:
        yield
    finally:
        for place in places:
            os.unlink(place)


def contents(dist):
    """The names of all files in the release."""
    for name in sorted(os.listdir(dist)):
        path = os.path.join(dist, name)
        if name.endswith('.tar.gz'):
            with tarfile.open(path) as archive:
                yield from archive.getnames()
        elif name.endswith(('.whl', '.vsix')):
            with zipfile.ZipFile(path) as archive:
                yield from archive.namelist()
        elif name.endswith('.deb'):
            yield from run('dpkg-deb', '-c', path)[1].split()


def tarball(checks, dist, room):
    name = f'humpipe-{version()}-linux-x86_64'
    checks.ends_well('tar', 'tar', '-xzf', os.path.join(dist, name + '.tar.gz'), '-C', room)
    folder = os.path.join(room, name)
    runs_first_pipeline(checks, 'tarball', folder)
    shows_page(checks, 'tarball', 'man', '-l', os.path.join(folder, 'man', 'humpipe.1'))
    prefix = os.path.join(room, 'prefix')
    checks.ends_well('install.sh', './install.sh', prefix, cwd=folder)
    runs_first_pipeline(checks, 'install.sh', linked(os.path.join(room, 'by-prefix'), os.path.join(prefix, 'bin', 'humpipe')))
    shows_page(checks, 'install.sh', 'man', '-M', os.path.join(prefix, 'share', 'man'), 'humpipe')
    runs_a_case(checks, 'install.sh', os.path.join(prefix, 'bin', 'humpipe'))
    by_install(checks, folder, room)
    python(checks, 'tarball: python', sys.executable, folder, env={'PYTHONPATH': os.path.join(folder, 'python'), 'HUMPIPE': os.path.join(folder, 'humpipe')})
    surroundings = {'HUMPIPE': os.path.join(folder, 'humpipe'), 'PYTHONDONTWRITEBYTECODE': '1'}
    checks.ends_well('tarball: tests of Python', sys.executable, '-m', 'unittest', 'tests.test_package', 'tests.test_scores', 'tests.test_faults',
                     cwd=os.path.join(folder, 'python'), env=surroundings)
    dead = [f'{page}: {link}' for page in glob.glob(os.path.join(folder, '**', '*.md'), recursive=True) for link in dead_links(page)]
    checks.tell('tarball: links', not dead, '\n'.join(dead))


def dead_links(page):
    """The links of a page to files that aren't there."""
    with open(page, encoding='utf-8') as file:
        lines = [line for line in file if not line.startswith('    ')]
    for link in re.findall(r'\]\(([^)#:\s]+)[)#]', ''.join(lines)):
        if not os.path.exists(os.path.join(os.path.dirname(page), link)):
            yield link


def by_install(checks, folder, room):
    """What install.sh refuses, where it installs, and that it takes all away."""
    for words in (['', ], ['--uninstall', ''], ['a', 'b'], ['--prefix=/a']):
        status, text = run('./install.sh', *words, cwd=folder)
        checks.tell(f'install.sh {words}', status == 2 and text != '', text)
    prefix = os.path.join(room, 'a prefix')
    checks.ends_well('install.sh, CDPATH and a blank', './install.sh', prefix, cwd=folder, env={'CDPATH': room})
    checks.tell('VERSION', open(os.path.join(prefix, 'share/doc/humpipe/VERSION'), encoding='utf-8').read().strip() == version(), 'another one')
    mine = os.path.join(prefix, 'bin', 'mine')
    open(mine, 'w').close()
    checks.ends_well('install.sh --uninstall', './install.sh', '--uninstall', prefix, cwd=folder)
    left = [os.path.join(place, name) for place, _, names in os.walk(prefix) for name in names]
    checks.tell('install.sh --uninstall: what is left', left == [mine] and sorted(os.listdir(prefix)) == ['bin'], f'{left} {os.listdir(prefix)}')


def runs_a_case(checks, what, program):
    """Whether humpipe-many, beside the program, answers a case."""
    many = os.path.join(os.path.dirname(program), 'humpipe-many')
    if not os.path.exists(many):
        checks.leave_out(f'{what}: humpipe-many', 'not made')
        return
    asked = b'000fout: read a0000' b'0005a000b**a\n*-\n00000000'
    found = subprocess.run([many], input=asked, capture_output=True, env={'PATH': PATH})
    checks.tell(f'{what}: humpipe-many', found.stdout == b'0000000500000' b'000b**a\n*-\n0000000500000', str(found))


def python(checks, what, interpreter, folder, **more):
    """Whether the Python package runs the program."""
    code = "import humpipe; print(humpipe.run('out: read a | mint', {'a': '**kern\\n4c\\n4d\\n*-\\n'}), end=''); print(humpipe.program_version())"
    _, text = run(interpreter, '-c', code, cwd=folder, **more)
    checks.tell(what, text == f'**mint\n[c]\n+M2\n*-\n{version()}\n', text)


def wheel(checks, dist, room):
    """Installs the wheel in a fresh venv, without a network, and the source distribution as far as there is setuptools."""
    files = glob.glob(os.path.join(dist, '*.whl'))
    if not files:
        checks.leave_out('the wheel', 'not made')
        return
    venv = os.path.join(room, 'venv')
    status, text = run(sys.executable, '-m', 'venv', venv)
    if status:
        checks.leave_out('the wheel', 'no venv: ' + text.strip().split('\n')[-1])
        return
    interpreter = os.path.join(venv, 'bin', 'python')
    checks.ends_well('pip install of the wheel', interpreter, '-m', 'pip', 'install', '-q', '--no-index', '--disable-pip-version-check', files[0],
                     env={'HOME': room})
    python(checks, 'wheel', interpreter, room)
    runs_first_pipeline(checks, 'wheel', linked(os.path.join(room, 'by-wheel'), os.path.join(venv, 'bin', 'humpipe')))
    runs_a_case(checks, 'wheel', os.path.join(venv, 'bin', 'humpipe'))
    checks.ends_well('pip check', interpreter, '-m', 'pip', 'check', env={'HOME': room})
    text = checks.ends_well('pip show', interpreter, '-m', 'pip', 'show', '-f', 'humpipe', env={'HOME': room})
    checks.tell('wheel: licences', 'licenses/LICENSE' in text and 'licenses/NOTICE' in text and 'page.css' in text, text)
    checks.ends_well('pip uninstall', interpreter, '-m', 'pip', 'uninstall', '-q', '-y', 'humpipe', env={'HOME': room})
    checks.tell('wheel: nothing is left', not os.path.exists(os.path.join(venv, 'bin', 'humpipe')), 'the program is')
    with tarfile.open(os.path.join(dist, f'humpipe-{version()}.tar.gz')) as archive:
        names = {name.partition('/')[2] for name in archive.getnames()}
    wanted = {'PKG-INFO', 'pyproject.toml', 'LICENSE', 'NOTICE', 'tests/test_running.py', 'humpipe/py.typed', 'humpipe/page.js'}
    checks.tell('source distribution', wanted <= names, str(wanted - names))


def extension(checks, dist):
    """The extension has what its manifest and its package.json name."""
    with zipfile.ZipFile(os.path.join(dist, f'humpipe-{version()}.vsix')) as archive:
        names = set(archive.namelist())
        manifest = xml.etree.ElementTree.fromstring(archive.read('extension.vsixmanifest'))
        types = xml.etree.ElementTree.fromstring(archive.read('[Content_Types].xml'))
        contributes = json.loads(archive.read('extension/package.json'))['contributes']
    named = {one.get('Path') for one in manifest.iter() if one.tag.endswith('Asset')}
    named |= {'extension/' + one[key][2:] for one in contributes['languages'] + contributes['grammars'] for key in ('path', 'configuration') if key in one}
    checks.tell('vsix: what it names', named <= names, str(named - names))
    ends = {one.get('Extension') for one in types}
    checks.tell('vsix: kinds of files', {os.path.splitext(name)[1] for name in names - {'[Content_Types].xml'}} <= ends, str(ends))


def package(checks, dist, room, is_whole):
    files = glob.glob(os.path.join(dist, '*.deb'))
    if not files:
        checks.leave_out('the Debian package', 'not made')
        return
    root = os.path.join(room, 'unpacked')
    checks.ends_well('dpkg -x', 'dpkg', '-x', files[0], root)
    runs_first_pipeline(checks, 'dpkg -x', linked(os.path.join(room, 'by-dpkg-x'), os.path.join(root, 'usr', 'bin', 'humpipe')))
    shows_page(checks, 'dpkg -x', 'man', '-M', os.path.join(root, 'usr', 'share', 'man'), 'humpipe')
    depends(checks, files[0], os.path.join(root, 'usr', 'bin', 'humpipe'))
    runs_a_case(checks, 'dpkg -x', os.path.join(root, 'usr', 'bin', 'humpipe'))
    if is_whole:
        by_dpkg_root(checks, files[0], room)
        by_debootstrap(checks, files[0], room)
        by_lintian(checks, files[0])


def depends(checks, file, program):
    """The version of the C library that the package names is the highest that a symbol of the program has."""
    if not has('readelf'):
        checks.leave_out('Depends', 'no readelf')
        return
    _, named = run('dpkg-deb', '-f', file, 'Depends')
    _, symbols = run('readelf', '-W', '--version-info', program)
    highest = max(tuple(int(part) for part in found.split('.')) for found in re.findall(r'Name: GLIBC_([0-9.]+)', symbols))
    checks.tell('Depends', named.strip() == f'libc6 (>= {".".join(str(part) for part in highest)})', named)
    _, needed = run('readelf', '-W', '-d', program)
    libraries = set(re.findall(r'\(NEEDED\).*\[(.*)\]', needed))
    checks.tell('what the program needs', libraries <= {'libc.so.6', 'ld-linux-x86-64.so.2'}, str(libraries))


def by_dpkg_root(checks, file, room):
    """Installs it by dpkg in a root where nothing is; the C library that it depends on stays outside."""
    root = os.path.join(room, 'root')
    for folder in 'info', 'updates', 'triggers':
        os.makedirs(os.path.join(root, 'var/lib/dpkg', folder))
    open(os.path.join(root, 'var/lib/dpkg/status'), 'w').close()
    if os.geteuid() != 0:
        checks.leave_out('dpkg --root', 'not as root')
        return
    # the scripts of the package need a shell
    for name in ['/bin/sh'] + re.findall(r'(/\S+\.so\S*)', run('ldd', '/bin/sh')[1]):
        os.makedirs(os.path.dirname(root + name), exist_ok=True)
        shutil.copy(name, root + name)
    checks.ends_well('dpkg --root', 'dpkg', f'--root={root}', '--force-depends', '-i', file)
    status = run('dpkg', f'--root={root}', '-s', 'humpipe')[1]
    checks.tell('dpkg --root: status', 'Status: install ok installed' in status and f'Version: {version()}' in status, status)
    runs_first_pipeline(checks, 'dpkg --root', linked(os.path.join(room, 'by-dpkg-root'), os.path.join(root, 'usr', 'bin', 'humpipe')))
    shows_page(checks, 'dpkg --root', 'man', '-M', os.path.join(root, 'usr', 'share', 'man'), 'humpipe')


def by_debootstrap(checks, file, room):
    """Installs it by apt in a new Debian, with what it depends on."""
    if not has('debootstrap') or os.geteuid() != 0:
        checks.leave_out('in a new Debian', 'no debootstrap' if os.geteuid() == 0 else 'not as root')
        return
    root = os.path.join(room, 'debian')
    status, text = run('debootstrap', '--variant=minbase', '--include=man-db,python3-minimal', 'bookworm', root)
    if status:
        checks.leave_out('in a new Debian', 'debootstrap: ' + text.strip().split('\n')[-1])
        return
    shutil.copy(file, os.path.join(root, 'tmp'))
    before = installed(root)
    checks.ends_well('apt-get install', 'chroot', root, 'apt-get', 'install', '-y', '/tmp/' + os.path.basename(file),
                     env={'DEBIAN_FRONTEND': 'noninteractive'})
    runs_first_pipeline(checks, 'in a new Debian', linked(os.path.join(root, 'tmp', 'first'), '/usr/bin/humpipe'), root)
    shows_page(checks, 'in a new Debian', 'chroot', root, 'man', 'humpipe')
    code = ("import humpipe, importlib.metadata; assert humpipe.run('out: read a', {'a': '**a\\n*-\\n'}) == '**a\\n*-\\n'; "
            "print(importlib.metadata.version('humpipe'))")
    text = checks.ends_well('in a new Debian: python', 'chroot', root, 'python3', '-c', code)
    checks.tell('in a new Debian: version', text.strip() == version(), text)
    checks.ends_well('apt-get purge', 'chroot', root, 'apt-get', 'purge', '-y', 'humpipe', env={'DEBIAN_FRONTEND': 'noninteractive'})
    left = {name for name in installed(root) - before if 'humpipe' in name}
    checks.tell('purged: nothing is left', not left, '\n'.join(sorted(left)))


def installed(root):
    """All files and folders where a package may put some."""
    return {os.path.relpath(os.path.join(place, name), root) for top in ('usr', 'etc', 'var/lib') for place, folders, names in os.walk(os.path.join(root, top))
            for name in folders + names if 'dpkg' not in place and 'apt' not in place.split(os.sep)}


def by_lintian(checks, file):
    if not has('lintian'):
        checks.leave_out('lintian', 'no lintian')
        return
    status, text = run('lintian', '--fail-on', 'error', *(['--allow-root'] if os.geteuid() == 0 else []), file, env={'HOME': '/tmp'})
    checks.tell('lintian', status == 0 and not re.search(r'^E:', text, re.M), text)


def release_is_made(checks, dist):
    """The files in dist are those that were made here."""
    for name in sorted(os.listdir(dist)):
        status, text = run('cmp', os.path.join(TOP, 'dist', name), os.path.join(dist, name))
        checks.tell(f'dist/{name}', status == 0, text)


def editor(checks, program, room):
    """The task of the editor tells a plan's mistake in the form that its matcher reads."""
    folder = os.path.join(TOP, 'editors', 'vscode')
    with open(os.path.join(folder, 'tasks.json'), encoding='utf-8') as file:
        tasks = json.load(file)['tasks']
    with open(os.path.join(folder, 'package.json'), encoding='utf-8') as file:
        contributes = json.load(file)['contributes']
    for language in contributes['languages'] + contributes['grammars']:
        path = language.get('configuration', language.get('path'))
        checks.tell(path, os.path.exists(os.path.join(folder, path)), 'not there')
    path = linked(os.path.join(room, 'bin'), program)
    patterns = {one['name']: one['regexp'] for one in contributes['problemPatterns']}
    bundle = ('a.hbundle', 'out: read a | semits\n--- a\n**kern\n*-\n')
    for name, text, score, task, pattern, groups in (
            ('a plan.hpl', 'out: read /dev/stdin | semits\n', '4c', 0, 'humpipe-plan', ('{plan}', '1', '4', 'N9')),
            ('a plan.hpl', 'out: read /dev/stdin | semits\n', '4c', 1, 'humpipe-plan', ('{plan}', '1', '4', 'N9')),
            (*bundle, '4c', 0, 'humpipe-plan', ('{plan}', '1', '4', 'N9')),
            ('a plan.hpl', 'out: read /dev/stdin | semits -x\n', '4c\t4c', 1, 'humpipe-score', ('{score}', 'humpipe: stage 1 (read), line 2: P2', '2', 'P2')),
            ('a plan.hpl', 'out: read /dev/stdin | semits -x\n', '4c4c', 1, 'humpipe-stage', ('{plan}', 'humpipe: stage 2 (semits), line 2: K1', 'K1'))):
        plan, krn = os.path.join(room, name), os.path.join(room, 'a.krn')
        for file, whole in (plan, text), (krn, f'**kern\n{score}\n*-\n'):
            with open(file, 'w', encoding='utf-8') as out:
                out.write(whole)
        words = [word.replace('${file}', plan).replace('${input:score}', krn) for word in tasks[task]['args']]
        _, told = run(tasks[task]['command'], *words, env={'PATH': path + ':' + PATH}, cwd=room)
        last = told.rstrip('\n').split('\n')[-1]
        found = [one for one in patterns if re.match(patterns[one], last)]
        wanted = tuple(group.format(plan=plan, score=krn) for group in groups)
        checks.tell(f'{tasks[task]["label"]}: {pattern}', found == [pattern] and re.match(patterns[pattern], last).groups() == wanted, told)


VIM = '''set nocompatible
set rtp^={top}/editors/vim
filetype plugin on
syntax on
edit bad.hpl
silent make
let told = map(getqflist(), '[bufname(v:val.bufnr), v:val.lnum, v:val.col, v:val.text]') + [&filetype, &commentstring]
let g:humpipe_score = 's.krn'
edit ok.hpl
silent make
let told += map(getqflist(), 'v:val.text')
edit s.krn
let told += [&filetype, map([[1, 1], [2, 1], [2, 2], [3, 1]], 'synIDattr(synID(v:val[0], v:val[1], 1), "name")')]
call writefile([json_encode(told)], 'out.json')
qa!
'''


def vim(checks, program, room):
    """What vim makes of plans and scores: their kinds, comments and colours, and the line that :make goes to."""
    if not has('vim'):
        checks.leave_out('vim', 'no vim')
        return
    folder = os.path.join(room, 'vim')
    path = linked(folder, program)
    for name, text in (('bad.hpl', 'out: read /dev/stdin | semits\n'), ('ok.hpl', 'out: read /dev/stdin | mint\n'), ('s.krn', '**kern\n4c4e\n*-\n'),
                       ('t.vim', VIM.format(top=TOP))):
        with open(os.path.join(folder, name), 'w', encoding='utf-8') as file:
            file.write(text)
    _, text = run('vim', '-es', '-u', 'NONE', '-S', 't.vim', cwd=folder, env={'PATH': path + ':' + PATH, 'HOME': folder})
    found = None
    if os.path.exists(os.path.join(folder, 'out.json')):
        with open(os.path.join(folder, 'out.json'), encoding='utf-8') as file:
            found = json.load(file)
    wanted = [['bad.hpl', 1, 4, 'N9'], 'humpipe', '# %s', 'stage 2 (mint), line 2: K1', 'humdrum',
              ['humdrumExclusive', 'humdrumDuration', 'humdrumPitch', 'humdrumPath']]
    checks.tell('vim', found == wanted, f'{found}\n{text}')


def completions(checks, room):
    """What bash completes: plans, but any file after `<`."""
    script = (f'. {TOP}/completions/humpipe.bash; compopt() {{ :; }}; COMP_WORDS=("$@"); COMP_CWORD=$(($# - 1)); _humpipe; printf "%s\\n" "${{COMPREPLY[@]}}"')
    folder = os.path.join(room, 'completions')
    os.makedirs(os.path.join(folder, 'sub'))
    for name in 'a plan.hpl', 'a.krn':
        open(os.path.join(folder, name), 'w').close()
    for words, wanted in ((('a',), ['a plan.hpl']), (('a plan.hpl', '<', 'a'), ['a plan.hpl', 'a.krn']), (('a plan.hpl', '>', 's'), ['sub']),
                          (('--o',), ['--order']), (('--order', '='), ['left', 'right']), (('--order', '=', 'l'), ['left']), (('--link', '2'), ['256'])):
        _, text = run('bash', '-c', script, 'bash', 'humpipe', *words, cwd=folder)
        checks.tell(f'bash completion: {" ".join(words)}', sorted(text.splitlines()) == wanted, text)


def main():
    is_whole = '--whole' in sys.argv
    words = [word for word in sys.argv[1:] if word != '--whole']
    program = os.path.abspath(words[0]) if len(words) == 1 else sys.exit('usage: check.py [--whole] PROGRAM')
    checks = Checks()
    checks.ends_well('version.py', os.path.join(HERE, 'version.py'), '--check')
    if shutil.which('rt'):
        checks.ends_well('notice.py', os.path.join(HERE, 'notice.py'), '--check', env={'PATH': os.environ['PATH']})
    else:
        checks.leave_out('whether NOTICE has all crates', 'no rt')
    checks.tell('no rt on the path', not has('rt'))
    with tempfile.TemporaryDirectory(prefix='humpipe-release-') as room:
        is_checkout = run('git', '-c', f'safe.directory={TOP}', '-C', TOP, 'ls-files', '--error-unmatch', 'VERSION')[0] == 0
        with planted() if is_checkout else contextlib.nullcontext():
            dist = same_bytes(checks, program, room)
        if is_checkout:
            found = [name for name in contents(dist) if 'planted' in name or 'cache' in name]
            checks.tell('what git does not track', not found, '\n'.join(found))
        else:
            checks.leave_out('what git does not track', 'not a checkout')
        if checks.failed == 0:
            tarball(checks, dist, room)
            wheel(checks, dist, room)
            extension(checks, dist)
            package(checks, dist, room, is_whole)
            editor(checks, program, room)
            vim(checks, program, room)
            completions(checks, room)
        if is_whole:
            release_is_made(checks, dist)
    print(f'{checks.passed} passed, {checks.failed} failed')
    sys.exit(1 if checks.failed else 0)


main()
