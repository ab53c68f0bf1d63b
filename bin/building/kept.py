"""What is kept of a build: the sum of what something is made of, the stamp beside it, and the locks that keep others
out."""
import contextlib
import fcntl
import hashlib
import os
import shutil
from pathlib import Path
from typing import Callable, Dict, Iterable, Iterator, Sequence, Tuple

from .crates import Crate, Crates, Stopped, version_of


def sum_of(crate: Crate) -> str:
    """The SHA-256 of its line in crates.txt, and of the names and the contents of its files, as sha256sum tells
    them."""
    files = [path for part in ('src', 'specs', 'proofs') for path in (crate.folder / part).rglob('*') if path.is_file()]
    told = {str(path.relative_to(crate.folder)): hashlib.sha256(path.read_bytes()).hexdigest() for path in files}
    lines = [crate.line, *(f'{told[name]}  {name}' for name in sorted(told))]
    return hashlib.sha256(''.join(f'{line}\n' for line in lines).encode()).hexdigest()


def made_of(crates: Crates, names: Iterable[str], kit: Path) -> Dict[str, str]:
    """Of each of these crates what its build is made of: the kit, and the sums of all crates below it, which are to be
    among them, and its own."""
    sums = {name: sum_of(crates[name]) for name in names}
    return {
        name: '\n'.join([version_of(kit), *(f'{each} {sums[each]}' for each in crates[name].all)]) + '\n'
        for name in sums
    }


def stamp_of(product: Path) -> Path:
    """The file beside what was built that says what it was made of. It is there only if the build ended well."""
    return product.with_name(f'{product.name}.made_of')


def is_made_of(product: Path, text: str) -> bool:
    return product.exists() and stamp_of(product).exists() and stamp_of(product).read_text() == text


def check_unchanged(crates: Iterable[Crate], text: str) -> None:
    """Stops if one of these crates isn't what the text says, of which something is made."""
    for crate in crates:
        if f'\n{crate.name} {sum_of(crate)}\n' not in text:
            raise Stopped(f'{crate.name} changed while it was built: call this again')


def keep(product: Path, text: str, crates: Iterable[Crate] = ()) -> None:
    """Keeps what was built, as made of what the text says, unless one of these crates changed meanwhile."""
    check_unchanged(crates, text)
    new = product.with_name(f'{product.name}.made_of.new')
    new.write_text(text)
    new.replace(stamp_of(product))


def drop(product: Path) -> None:
    """Takes away what was built, and its stamp first. Nothing is written over it: it may run, or be the gate's own,
    under two names."""
    product.parent.mkdir(parents=True, exist_ok=True)
    stamp_of(product).unlink(missing_ok=True)
    shutil.rmtree(product, ignore_errors=True)
    product.unlink(missing_ok=True)


def lock(handle: int, what: str, say: Callable[[str], None]) -> None:
    """Locks a file or a folder, in the way of rt, and waits until no other call has it."""
    try:
        fcntl.flock(handle, fcntl.LOCK_EX | fcntl.LOCK_NB)
    except BlockingIOError:
        say(f'waits for another call, which builds or checks {what}')
        fcntl.flock(handle, fcntl.LOCK_EX)


@contextlib.contextmanager
def locked(crates: Sequence[Crate], say: Callable[[str], None]) -> Iterator[Tuple[int, ...]]:
    """Keeps all others from building or checking in the folders of these crates. A process that is begun with these
    handles keeps them locked, even if this one is killed."""
    handles = {crate.name: os.open(crate.folder, os.O_RDONLY) for crate in sorted(crates)}
    try:
        for name, handle in handles.items():
            lock(handle, name, say)
        yield tuple(handles.values())
    finally:
        for handle in handles.values():
            os.close(handle)
