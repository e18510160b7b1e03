#!/usr/bin/env python3
"""Makes the wheel of the Python package, with shared libraries in it, by Python's own modules.

    python3 packaging/wheel.py OUT NN LIBRARY..      OUT/gubzelk-VERSION-py3-none-manylinux_2_NN_x86_64.whl

The package is bindings/python/gubzelk. A library lies in the wheel without the version in its name. NN is the second
number of the oldest glibc that all of them run with. The file
VERSION has the version, and SOURCE_DATE_EPOCH the date of the files."""
import base64
import hashlib
import os
import pathlib
import re
import sys
import time
import zipfile

TOP = pathlib.Path(__file__).resolve().parent.parent
PACKAGE = TOP / 'bindings/python'


def project(key):
    """What pyproject.toml says of a key."""
    return re.search(rf'^{key} = "(.*)"$', (PACKAGE / 'pyproject.toml').read_text(), re.M)[1]


def main():
    if len(sys.argv) < 4 or not sys.argv[2].isdigit():
        sys.exit('usage: python3 packaging/wheel.py OUT NN LIBRARY..')
    folder, libraries = pathlib.Path(sys.argv[1]), map(pathlib.Path, sys.argv[3:])
    version = (TOP / 'VERSION').read_text().strip()
    if project('version') != version:
        sys.exit(f'wheel.py: pyproject.toml has the version {project("version")}, and the file VERSION has {version}')
    name, tag = f'gubzelk-{version}', f'py3-none-manylinux_2_{sys.argv[2]}_x86_64'
    metadata = ['Metadata-Version: 2.1', 'Name: gubzelk', f'Version: {version}', f'Summary: {project("description")}',
                f'Requires-Python: {project("requires-python")}', 'Description-Content-Type: text/markdown', '',
                (PACKAGE / 'README.md').read_text()]
    wheel = ['Wheel-Version: 1.0', 'Generator: packaging/wheel.py', 'Root-Is-Purelib: false', f'Tag: {tag}', '']
    files = {f'gubzelk/{path.name}': path.read_bytes() for path in (PACKAGE / 'gubzelk').iterdir()
             if path.suffix == '.py' or path.name == 'py.typed'}
    files.update({f'gubzelk/{path.name.split(".so")[0]}.so': path.read_bytes() for path in libraries})
    files[f'{name}.dist-info/METADATA'] = '\n'.join(metadata).encode()
    files[f'{name}.dist-info/WHEEL'] = '\n'.join(wheel).encode()
    record = ''
    for path, text in sorted(files.items()):
        digest = base64.urlsafe_b64encode(hashlib.sha256(text).digest()).decode().rstrip('=')
        record += f'{path},sha256={digest},{len(text)}\n'
    files[f'{name}.dist-info/RECORD'] = f'{record}{name}.dist-info/RECORD,,\n'.encode()
    date = time.gmtime(max(int(os.environ['SOURCE_DATE_EPOCH']), 315532800))[:6]
    with zipfile.ZipFile(folder / f'{name}-{tag}.whl', 'w', zipfile.ZIP_DEFLATED) as out:
        for path, text in sorted(files.items(), key=lambda each: ('.dist-info/' in each[0], each[0])):
            info = zipfile.ZipInfo(path, date)
            info.external_attr = 0o100644 << 16
            info.compress_type = zipfile.ZIP_DEFLATED
            out.writestr(info, text)


if __name__ == '__main__':
    main()
