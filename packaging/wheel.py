#!/usr/bin/env python3
"""wheel.py TREE GLIBC FOLDER: makes the Python packages of a release in FOLDER, from the files of TREE: a wheel with the programs in it, for Linux
on x86-64 with this version of the C library (2.34), and the source distribution with licence and tests. The same files give the same bytes.

A wheel is a zip file with some metadata (https://packaging.python.org/specifications/binary-distribution-format)."""
import base64
import gzip
import hashlib
import io
import os
import sys
import tarfile
import time
import tomllib
import zipfile

EPOCH = int(os.environ['SOURCE_DATE_EPOCH'])
LICENCES = ('LICENSE', 'NOTICE')
PROGRAMS = ('humpipe', 'humpipe-many')


def read(*names):
    with open(os.path.join(*names), 'rb') as file:
        return file.read()


def metadata(tree, version):
    """The file METADATA, which a source distribution has as PKG-INFO."""
    project = tomllib.loads(read(tree, 'python', 'pyproject.toml').decode())['project']
    lines = ['Metadata-Version: 2.1', f'Name: {project["name"]}', f'Version: {version}', f'Summary: {project["description"]}',
             f'Author: {project["authors"][0]["name"]}', f'License: {project["license"]["text"]}', f'Keywords: {",".join(project["keywords"])}']
    lines += [f'Classifier: {one}' for one in project['classifiers']]
    lines += [f'Requires-Python: {project["requires-python"]}', 'Description-Content-Type: text/markdown']
    lines += [f'License-File: {name}' for name in LICENCES]
    for extra, needs in project['optional-dependencies'].items():
        lines += [f'Provides-Extra: {extra}'] + [f'Requires-Dist: {one} ; extra == "{extra}"' for one in needs]
    return ('\n'.join(lines) + '\n\n').encode() + read(tree, 'python', 'README.md')


def below(tree, folder):
    """The files below a folder: their names from there."""
    return sorted(os.path.relpath(os.path.join(place, name), os.path.join(tree, folder))
                  for place, _, names in os.walk(os.path.join(tree, folder)) for name in names)


def wheel(tree, glibc, version):
    """The name and the bytes of the wheel."""
    tag = f'py3-none-manylinux_{glibc.replace(".", "_")}_x86_64'
    info = f'humpipe-{version}.dist-info'
    files = {f'humpipe/{name}': read(tree, 'python', 'humpipe', name) for name in below(tree, 'python/humpipe')}
    files.update({f'humpipe-{version}.data/scripts/{name}': read(tree, name) for name in PROGRAMS if os.path.exists(os.path.join(tree, name))})
    files.update({f'{info}/licenses/{name}': read(tree, name) for name in LICENCES})
    files[f'{info}/METADATA'] = metadata(tree, version)
    files[f'{info}/WHEEL'] = f'Wheel-Version: 1.0\nGenerator: humpipe\nRoot-Is-Purelib: false\nTag: {tag}\n'.encode()
    record = ''.join(f'{name},sha256={_hash(data)},{len(data)}\n' for name, data in files.items()) + f'{info}/RECORD,,\n'
    files[f'{info}/RECORD'] = record.encode()
    return f'humpipe-{version}-{tag}.whl', zipped(files, executable=lambda name: '/scripts/' in name)


def _hash(data):
    return base64.urlsafe_b64encode(hashlib.sha256(data).digest()).rstrip(b'=').decode()


def zipped(files, executable=lambda name: False):
    """A zip file of these names and bytes, all of one date."""
    out = io.BytesIO()
    with zipfile.ZipFile(out, 'w', zipfile.ZIP_DEFLATED) as archive:
        for name, data in files.items():
            entry = zipfile.ZipInfo(name, time.gmtime(EPOCH)[:6])
            entry.external_attr = (0o100755 if executable(name) else 0o100644) << 16
            entry.create_system = 3
            entry.compress_type = zipfile.ZIP_DEFLATED
            archive.writestr(entry, data)
    return out.getvalue()


def source(tree, version):
    """The name and the bytes of the source distribution."""
    stem = f'humpipe-{version}'
    files = {name: read(tree, 'python', name) for name in below(tree, 'python')}
    files.update({name: read(tree, name) for name in LICENCES})
    files['PKG-INFO'] = metadata(tree, version)
    out = io.BytesIO()
    with gzip.GzipFile('', 'wb', 9, out, EPOCH) as packed, tarfile.open(fileobj=packed, mode='w', format=tarfile.PAX_FORMAT) as archive:
        for name, data in sorted(files.items()):
            entry = tarfile.TarInfo(f'{stem}/{name}')
            entry.size, entry.mtime, entry.mode = len(data), EPOCH, 0o644
            archive.addfile(entry, io.BytesIO(data))
    return f'{stem}.tar.gz', out.getvalue()


def main():
    tree, glibc, folder = sys.argv[1:]
    version = read(tree, 'VERSION').decode().strip()
    for name, data in wheel(tree, glibc, version), source(tree, version):
        with open(os.path.join(folder, name), 'wb') as file:
            file.write(data)


if __name__ == '__main__':
    main()
