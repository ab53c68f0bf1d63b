"""Builds the wheel of the package `bully` for pip, by the standard library alone.

The wheel takes libbully.so with it from the folder BULLY_LIBRARY, or from `lib` in that; or else from `lib` of an
archive; or else from out/library at the top of the repository, where `bin/library` puts it; or else from
out/unproved/library, where the demo puts one that isn't proved. Without any it has none, and whoever uses it sets
BULLY_LIBRARY. It always has bully.h, which the package reads: that of the archive or the repository. The same files
make the same bytes; SOURCE_DATE_EPOCH, where it is set, is the time of each. """
from __future__ import annotations

import base64
import hashlib
import os
import re
import sys
import sysconfig
import time
import zipfile
from pathlib import Path
from typing import Optional

HERE = Path(__file__).resolve().parents[1]
UNPROVED = Path('out', 'unproved', 'library', 'lib')
FIRST_TIME = 315532800  # the first that a zip can tell: 1980-01-01

Tables = dict[str, dict[str, str]]
Settings = Optional[dict[str, object]]


def tables_of(text: str) -> Tables:
    """The tables of a document in TOML that have strings of one line. (The standard library reads all of TOML from
    Python 3.11 on.)"""
    tables: Tables = {}
    for head, body in re.findall(r'^\[([^\[\]]+)\]\n((?:[^\[\n].*\n|\n)*)', text, re.MULTILINE):
        tables[head] = dict(re.findall(r'^([\w-]+) = "(.*)"$', body, re.MULTILINE))
    return tables


TABLES = tables_of((HERE / 'pyproject.toml').read_text(encoding='utf-8'))
PROJECT = TABLES['project']
COMMAND = 'bully_member.py'
NAME, VERSION = PROJECT['name'], PROJECT['version']
SAID = f'{NAME}-{VERSION}.dist-info'
METADATA = f"""\
Metadata-Version: 2.1
Name: {NAME}
Version: {VERSION}
Summary: {PROJECT['description']}
License: none is chosen yet
Requires-Python: {PROJECT['requires-python']}
"""
ENTRY_POINTS = ''.join(
    ['[console_scripts]\n', *(f'{name} = {place}\n' for name, place in TABLES['project.scripts'].items())]
)


def get_requires_for_build_wheel(config_settings: Settings = None) -> list[str]:
    """Nothing is needed."""
    return []


def build_wheel(wheel_directory: str, config_settings: Settings = None, metadata_directory: str | None = None) -> str:
    """Writes the wheel into this folder, with the file that the setting `proved` names, if any. Its name."""
    library = find_library()
    tag = f'py3-none-{platform()}' if library else 'py3-none-any'
    sources = filter(is_source, sorted((HERE / NAME).rglob('*')))
    files = {each.relative_to(HERE).as_posix(): each.read_bytes() for each in sources}
    files[COMMAND] = (HERE / COMMAND).read_bytes()
    files[f'{NAME}/bully.h'] = find_header(library).read_bytes()
    if library:
        files[f'{NAME}/libbully.so'] = library.read_bytes()
    files[f'{SAID}/METADATA'] = METADATA.encode()
    files[
        f'{SAID}/WHEEL'
    ] = f'Wheel-Version: 1.0\nGenerator: {NAME}\nRoot-Is-Purelib: {str(not library).lower()}\nTag: {tag}\n'.encode()
    files[f'{SAID}/entry_points.txt'] = ENTRY_POINTS.encode()
    if config_settings and 'proved' in config_settings:
        files[f'{SAID}/PROVED'] = Path(str(config_settings['proved'])).read_bytes()
    files[f'{SAID}/RECORD'] = record(files).encode()
    name = f'{NAME}-{VERSION}-{tag}.whl'
    write(Path(wheel_directory) / name, files)
    return name


def platform() -> str:
    """This machine's name in tags."""
    return sysconfig.get_platform().replace('-', '_').replace('.', '_')


def is_source(path: Path) -> bool:
    return path.suffix == '.py' or path.name == 'py.typed'


def find_library() -> Path | None:
    """The library to take along, if there is one. What BULLY_LIBRARY names has to be there."""
    named = os.environ.get('BULLY_LIBRARY')
    top = HERE.parents[1]
    places = (
        [Path(named, 'lib'), Path(named)] if named else [top / 'lib', top / 'out' / 'library' / 'lib', top / UNPROVED]
    )
    files = (place / 'libbully.so' if place.is_dir() else place for place in places)
    file = next(filter(Path.is_file, files), None)
    if named and not file:
        raise SystemExit(f'BULLY_LIBRARY is {named}, and there is no libbully.so')
    if file and file.parent == top / UNPROVED:
        print(f'bully: the wheel takes {file}, which is not proved; bin/library proves it', file=sys.stderr)
    return file


def find_header(library: Path | None) -> Path:
    """The header: that of this tree; or else, if pip took the package out of it, the one with the library."""
    places = [HERE.parents[1] / 'include', *([library.parent, library.parents[1] / 'include'] if library else [])]
    file = next(filter(Path.is_file, (place / 'bully.h' for place in places)), None)
    if not file:
        raise SystemExit(
            'there is no bully.h: build the wheel in the archive or in the repository, or set BULLY_LIBRARY'
        )
    return file


def record(files: dict[str, bytes]) -> str:
    """The list of the files, with their sums."""
    lines = []
    for name, content in files.items():
        digest = base64.urlsafe_b64encode(hashlib.sha256(content).digest()).rstrip(b'=').decode()
        lines.append(f'{name},sha256={digest},{len(content)}\n')
    return ''.join(lines) + f'{SAID}/RECORD,,\n'


def write(path: Path, files: dict[str, bytes]) -> None:
    year, month, day, hour, minute, second = time.gmtime(
        max(FIRST_TIME, int(os.environ.get('SOURCE_DATE_EPOCH', '0')))
    )[:6]
    with zipfile.ZipFile(path, 'w', zipfile.ZIP_DEFLATED) as wheel:
        for name, content in files.items():
            entry = zipfile.ZipInfo(name, (year, month, day, hour, minute, second))
            entry.external_attr = (0o755 if name.endswith('.so') else 0o644) << 16
            entry.compress_type = zipfile.ZIP_DEFLATED
            wheel.writestr(entry, content)
