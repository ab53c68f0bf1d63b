"""The library for C: the proved functions of crates/bully_c, the layer of C before them, and nothing else that links
with more than the C library. What it exports is what bully.h declares. Its folder has the layout of what is handed out:
include/, lib/, and in lib/ by what pkg-config and CMake find it."""
import contextlib
import os
import shlex
import shutil
import subprocess
import sys
import tempfile
from pathlib import Path
from typing import Callable, Dict, List, Optional

from .crates import ARCHIVES, ROOT, Stopped, find_kit, read_crates, version_of_all, words_to_build
from .exports import text_of_exports, write_exports
from .kept import drop, is_made_of, keep
from .layer import HEADER, layer_of, read_header
from .proving import Building, Say, bring, build_all, crate_of
from .running import all_jobs

SHARED = 'libbully.so.1'
# By what others find the library: templates, and where they stand in its folder.
TEMPLATES = {
    'bully.pc.in': 'lib/pkgconfig/bully.pc',
    'bullyConfig.cmake.in': 'lib/cmake/bully/bullyConfig.cmake',
    'bullyConfigVersion.cmake.in': 'lib/cmake/bully/bullyConfigVersion.cmake',
}
FILES = ('include/bully.h', 'lib/libbully.a', f'lib/{SHARED}', 'lib/libbully.so', *TEMPLATES.values())
ARCHIVE = ROOT / 'crates' / 'bully_c' / 'out' / 'libbully_c.a'
SOURCE = ARCHIVE.with_suffix('.exports')  # (of what made it)
COMPILER = shlex.split(os.environ.get('CC') or 'cc')


def must(words: List[str], folder: Path = ROOT, log: Optional[Path] = None) -> None:
    """Runs these words. What they print goes into the log, which is named if they fail, or else on standard error."""
    with contextlib.ExitStack() as closing:
        out = closing.enter_context(log.open('wb')) if log else None
        errors = subprocess.STDOUT if log else None
        status = subprocess.run(
            words, cwd=folder, stdin=subprocess.DEVNULL, stdout=out or sys.stderr, stderr=errors
        ).returncode
    if status:
        raise Stopped(
            f'it was not built: {Path(words[0]).name} failed' + (f'; {log} has what it printed' if log else '')
        )


def proved_archive(say: Say) -> Path:
    """The proved functions, over what was built."""
    crates = read_crates()
    crate = crate_of(crates, 'bully_c', 'library')
    if not SOURCE.exists() or SOURCE.read_text() != text_of_exports(crate):
        drop(ARCHIVE)
    bring(ARCHIVE, crates, crate, say, make_archive)
    return ARCHIVE


def make_archive(building: Building) -> None:
    """Proves and builds the library, unless that is done, and then its functions for C."""
    crate, text = building.crate, building.made_of[building.crate.name]
    if not is_made_of(crate.product, text):
        build_all(building)
    keep(archive_over('built', building.say), text, [building.crates[name] for name in crate.all])


def gated_archive(say: Say) -> Path:
    """The same over the crates as the gate left them."""
    return archive_over('rlib', say)


def archive_over(part: str, say: Say) -> Path:
    """Builds the static library of the functions for C over the libraries in this part."""
    crates, kit = read_crates(), find_kit()
    drop(ARCHIVE)
    with tempfile.TemporaryDirectory() as room:
        exports = write_exports(crates['bully_c'], Path(room))
        words = [*words_to_build(kit, crates, exports, part), '--jobs', str(all_jobs()), '-o', str(ARCHIVE)]
        log = ARCHIVE.with_suffix('.log')
        say(f'builds the functions for C over these crates; {log} has what the prover prints')
        must([f'{kit}/bin/rattle', 'build', *words], exports.folder, log)
        shutil.copyfile(exports.folder / 'src' / 'lib.rt', SOURCE)
    return ARCHIVE


def defined(*words: str) -> List[str]:
    """The functions that a file gives to others."""
    said = subprocess.run(['nm', *words, '--defined-only', '-f', 'posix'], stdout=subprocess.PIPE, text=True).stdout
    return sorted(line.split()[0] for line in said.splitlines() if ' ' in line)


def filled(template: str, version: str) -> str:
    """A template with what stands in it for its names."""
    text = (ROOT / 'bindings' / 'packaging' / template).read_text(encoding='utf-8')
    major, minor, _ = version.split('.')
    for name, value in {'VERSION': version, 'MAJOR': major, 'MINOR': minor, 'SHARED': SHARED}.items():
        text = text.replace(f'@{name}@', value)
    return text


def make_files(room: Path, archive: Path, made: Dict[str, str]) -> None:
    """Makes one object of the proved functions, the layer before them and the kit's heap of C, with the header's names;
    and libraries of it. They stand in the room as they do in the folder, beside what they are made of, as what was made
    of the header."""
    for name in FILES:
        (room / name).parent.mkdir(parents=True, exist_ok=True)
    for name, text in made.items():
        (room / name).write_text(text)
    whole, layer, shared = f'{room}/bully.o', f'{room}/layer.o', f'{room}/lib/{SHARED}'
    flags = [
        f'-I{HEADER.parent}',
        f'-I{room}',
        '-std=c99',
        '-O2',
        '-fPIC',
        '-fno-lto',
        '-Wall',
        '-Wextra',
        f'-DBULLY_VERSION="{version_of_all()}"',
    ]
    must([*COMPILER, *flags, '-c', f'{ROOT}/bindings/c/bully.c', '-o', layer])
    must(['ld', '-r', '-z', 'noexecstack', '-o', whole, layer, str(archive), f'{find_kit()}/{ARCHIVES[1]}'])
    must(['objcopy', f'--keep-global-symbols={room}/declared', whole])
    must(['ar', 'rcsD', f'{room}/lib/libbully.a', whole])
    must(
        [
            *COMPILER,
            '-shared',
            '-o',
            shared,
            whole,
            f'-Wl,-soname,{SHARED}',
            '-Wl,-z,defs',
            '-Wl,-z,now',
            '-Wl,--gc-sections',
        ]
    )
    if not made['declared'].split() == defined('-g', whole) == defined('-D', shared):
        raise Stopped('it was not built: its functions are not those of bully.h')
    shutil.copyfile(HEADER, room / 'include' / 'bully.h')
    (room / 'lib' / 'libbully.so').symlink_to(SHARED)
    for template, name in TEMPLATES.items():
        (room / name).write_text(filled(template, version_of_all()), encoding='utf-8')


def make_library(folder: Path, archive_of: Callable[[Say], Path], say: Say) -> None:
    """Makes the files, of the functions that this brings about, in a room of the folder, and then puts them in their
    places."""
    missing = [tool for tool in (COMPILER[0], 'ld', 'objcopy', 'ar', 'nm') if not shutil.which(tool)]
    if missing:
        raise Stopped(f'there is no {missing[0]} on the path')
    folder.mkdir(parents=True, exist_ok=True)
    made = layer_of(read_header(HEADER.read_text()))
    archive = archive_of(say)
    with tempfile.TemporaryDirectory(prefix='.room.', dir=folder) as name:
        make_files(Path(name), archive, made)
        for each in FILES:
            (folder / each).parent.mkdir(parents=True, exist_ok=True)
            Path(name, each).replace(folder / each)
    say(f'{folder} has {", ".join(FILES)}')
