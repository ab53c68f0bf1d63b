"""Work beside other work, within the cores and the memory of the machine, and how it ends."""
import os
import re
import signal
import sys
from concurrent.futures import FIRST_COMPLETED, Future, ThreadPoolExecutor, wait
from contextlib import suppress
from graphlib import TopologicalSorter
from pathlib import Path
from subprocess import DEVNULL, STDOUT, Popen
from threading import Lock
from types import FrameType
from typing import IO, Callable, Dict, Iterator, List, NoReturn, Optional, Sequence, Tuple

from .crates import ROOT, Stopped

# Where `apart` keeps the streams of the call, of those that were open.
KEPT = {stream: kept for stream, kept in ((0, 7), (1, 8), (2, 9)) if Path(f'/dev/fd/{kept}').exists()}

SHOWN_MAX = 20  # lines that are shown of what failed


def give_way(process: int) -> None:
    """Has others be served before this process and those that it begins."""
    os.setpriority(os.PRIO_PROCESS, process, 10)
    with suppress(OSError):  # of a kernel that has groups for that
        Path(f'/proc/{process}/autogroup').write_text('10')


def all_jobs(more: int = 0) -> int:
    """As many processes of the prover as there are cores, or some more; but one for each 3 GB of free memory, and one
    at least."""
    most, memory = len(os.sched_getaffinity(0)) + more, Path('/proc/meminfo').read_text()
    free = re.search(r'^MemAvailable: *(\d+) kB$', memory, re.MULTILINE)
    return max(1, min(most, int(free[1]) // 3_000_000 if free else most))


def on_signals(answer: Callable[[int, Optional[FrameType]], object]) -> List[object]:
    """Has the signals that end a command answered so, but none that is ignored, as by `nohup`. Gives how they were
    answered before."""
    ending = (signal.SIGINT, signal.SIGTERM, signal.SIGHUP, signal.SIGQUIT)
    return [signal.signal(each, answer) for each in ending if signal.getsignal(each) != signal.SIG_IGN]


class Children:
    """The processes that a command has begun, each with all that it begins. They hold its locks, and are ended if it
    is, also by a signal."""

    def __init__(self, handles: Tuple[int, ...] = ()) -> None:
        self.handles, self.is_ending, self.lock = handles, False, Lock()
        self.begun: 'List[Popen[bytes]]' = []

    def begin(
        self, words: Sequence[str], folder: Path, out: 'int | IO[bytes]', errors: Optional[int] = STDOUT
    ) -> 'Popen[bytes]':
        """Begins these words in a folder, in a group of processes of their own. Nothing begins once the command
        ends."""
        with self.lock:
            if self.is_ending:
                raise Stopped('nothing more is begun')
            self.begun.append(
                Popen(
                    words,
                    cwd=folder,
                    stdin=DEVNULL,
                    stdout=out,
                    stderr=errors,
                    pass_fds=self.handles,
                    start_new_session=True,
                )
            )
            return self.begun[-1]

    def run(self, words: Sequence[str], folder: Path, said: Path) -> bool:
        """Whether these words, run in a folder, end with status 0. What they print goes into a file; if they fail, it
        is shown (`failure_text`)."""
        with said.open('ab') as out:
            status = self.begin(words, folder, out).wait()
        if status and not self.is_ending:
            by_signal = f'{Path(words[0]).name} was ended by signal {-status}\n' if status < 0 else ''
            sys.stderr.write(failure_text(said) + by_signal)
        return status == 0

    def end(self, *_: object) -> None:
        """Ends them all, and waits until they are."""
        with self.lock:
            self.is_ending = True
        for child in (each for each in self.begun if each.poll() is None):
            with suppress(ProcessLookupError):
                os.killpg(child.pid, signal.SIGTERM)
        for child in self.begun:
            child.wait()

    def __enter__(self) -> 'Children':
        """From here on a signal that would end the command has it leave, and so end them; and no other one breaks that
        off."""
        on_signals(lambda number, _: (on_signals(lambda *_: None), sys.exit(128 + number)))
        return self

    __exit__ = end


def failure_text(said: Path) -> str:
    """What a command printed that failed. If that is long: its errors, or else its last lines, and which file has
    all."""
    lines = said.read_text(errors='replace').splitlines(keepends=True)
    if len(lines) <= SHOWN_MAX:
        return ''.join(lines)
    log = ROOT / 'out' / f'{said.stem}.log'
    log.parent.mkdir(exist_ok=True)
    log.write_bytes(said.read_bytes())
    errors = [line for line in lines if 'error' in line]
    return f'{"".join((errors or lines[-SHOWN_MAX:])[:SHOWN_MAX])}{log} has all {len(lines)} lines of {said.stem}\n'


def give_back_streams() -> None:
    """Has the program that comes now have the streams of the call. One that was closed is closed again."""
    for stream in range(3):
        if stream in KEPT:
            os.dup2(KEPT[stream], stream)
            os.close(KEPT[stream])
        else:
            os.close(stream)


def become(words: Sequence[str]) -> NoReturn:
    """Goes on as this program, with the signals as they were: Python lets no closed pipe end it, and that would
    stay."""
    for each in (signal.SIGPIPE, signal.SIGXFSZ):
        signal.signal(each, signal.SIG_DFL)
    os.execv(words[0], list(words))


def hand_on(tool: str) -> NoReturn:
    """Goes on as this tool of the repository, with the words of the command."""
    become([str(ROOT / tool), *sys.argv[1:]])


def run_beside(
    needs: Dict[str, List[str]], length: Dict[str, int], run: Callable[[str, int], object], children: Children
) -> Iterator[str]:
    """Runs each task once those that it needs are done, and yields its name when it is done. A chain is a task and
    those that need it, one after the other; `length` estimates how long the longest chain of each task takes. Tasks of
    long chains start first.

    `run` gets a task, and how many processes it may use: one; or two, if its chain is at least three fifths of the
    longest one that is left. If fewer tasks are ready than cores are free, a task gets the other cores, too. So many
    tasks run at the same time as there are cores, at most, and in all they use up to two more processes than that,
    because each reads alone at first. If memory is short there are fewer of both."""
    tasks, cores, most = TopologicalSorter(needs), all_jobs(), all_jobs(2)
    tasks.prepare()
    ready: List[str] = []
    under_way: 'Dict[Future[object], Tuple[str, int]]' = {}
    with ThreadPoolExecutor(cores) as pool, children:
        while tasks.is_active():
            ready = sorted([*ready, *tasks.get_ready()], key=lambda name: length[name])
            while (
                ready
                and len(under_way) < cores
                and (used := sum(processes for _, processes in under_way.values())) < most
            ):
                name = ready.pop()
                longest = max(length[each] for each in (name, *(other for other, _ in under_way.values())))
                least = 2 if 5 * length[name] >= 3 * longest else 1
                processes = min(max(cores - used - len(ready), least), cores, most - used)
                under_way[pool.submit(run, name, processes)] = name, processes
            for ended in wait(under_way, return_when=FIRST_COMPLETED).done:
                name, _ = under_way.pop(ended)
                ended.result()
                tasks.done(name)
                yield name
