"""Builds the package for pip (PEP 517) with Python's own modules. pyproject.toml names it."""
import base64
import hashlib
import io
import os
import re
import sysconfig
import tarfile
import zipfile

TOP = os.path.dirname(os.path.abspath(__file__))


def read(name):
    with open(os.path.join(TOP, name), 'rb') as file:
        return file.read()


def value(key):
    """What pyproject.toml says of a key."""
    return re.search(rf'^{key} = "(.*)"$', read('pyproject.toml').decode(), re.M).group(1)


def metadata():
    return '\n'.join(['Metadata-Version: 2.1', f'Name: {value("name")}', f'Version: {value("version")}',
                      f'Summary: {value("description")}', f'Requires-Python: {value("requires-python")}', '']).encode()


def sources():
    """The package's files, with a shared library if there is one."""
    return [f'gubzelk/{name}' for name in sorted(os.listdir(os.path.join(TOP, 'gubzelk')))
            if name.endswith(('.py', '.so', '.dylib')) or name == 'py.typed']


def build_wheel(wheel_directory, config_settings=None, metadata_directory=None):
    name, version, files = value('name'), value('version'), sources()
    native = any(file.endswith(('.so', '.dylib')) for file in files)
    system = re.sub(r'[-.]', '_', sysconfig.get_platform()) if native else 'any'
    info, tag = f'{name}-{version}.dist-info', f'py3-none-{system}'
    wheel = f'Wheel-Version: 1.0\nGenerator: backend\nRoot-Is-Purelib: {str(not native).lower()}\nTag: {tag}\n'
    parts = [(file, read(file)) for file in files]
    parts += [(f'{info}/METADATA', metadata()), (f'{info}/WHEEL', wheel.encode())]
    record = ''
    for file, text in parts:
        digest = base64.urlsafe_b64encode(hashlib.sha256(text).digest()).decode().rstrip('=')
        record += f'{file},sha256={digest},{len(text)}\n'
    parts.append((f'{info}/RECORD', f'{record}{info}/RECORD,,\n'.encode()))
    built = f'{name}-{version}-{tag}.whl'
    with zipfile.ZipFile(os.path.join(wheel_directory, built), 'w', zipfile.ZIP_DEFLATED) as out:
        for file, text in parts:
            out.writestr(zipfile.ZipInfo(file, (1980, 1, 1, 0, 0, 0)), text)
    return built


def build_sdist(sdist_directory, config_settings=None):
    name, version = value('name'), value('version')
    built = f'{name}-{version}.tar.gz'
    with tarfile.open(os.path.join(sdist_directory, built), 'w:gz', format=tarfile.PAX_FORMAT) as out:
        for file, text in [('PKG-INFO', metadata())] + [(file, read(file)) for file in
                                                       ['pyproject.toml', 'backend.py', *sources()]]:
            info = tarfile.TarInfo(f'{name}-{version}/{file}')
            info.size = len(text)
            out.addfile(info, io.BytesIO(text))
    return built
