"""A group that elects a coordinator by the Bully algorithm, in Python: the binding of a proved library.

The package binds `include/bully.h` by ctypes. It needs Python 3.9 or later, and nothing but the standard library.

- `Agent` is one node on its own, which exchanges calls with the others. `docs/NODE.md` says when it wants which call,
  and what the program must keep.
- `Replica` is what a process knows of a group whose history is a log in a store.
- `Member` is a process that takes part in such a group, over a log of `bully.shared_log`: `docs/MEMBERS.md`. The
  command `bully-member` runs one. `bully.core` has the proved rules of a member alone.

`bin/library FOLDER` of the repository builds the library. The package finds it by

    load('FOLDER')                  # the folder that bin/library made, or the path of libbully.so itself
    BULLY_LIBRARY=FOLDER python3 .. # the same, if `load` wasn't called

Otherwise it takes the library from the folder of this package, where `pip install` puts it, from `lib` of an archive,
or from `out/library` or, without proofs, `out/unproved/library` of the repository. It also reads `bully.h`, from the
folder of this package, from `include` of the archive or of the repository, or from beside the library that
BULLY_LIBRARY names.

One call of a node, which a program sends from process to process, and the log that `check` judges:

    setup = Setup(nodes=2, partitions=3)
    log = [setup.detailed_header()]
    with Agent(setup, 1) as caller, Agent(setup, 2) as callee:
        caller.recover()
        log += caller.rows()
        callee.recover()
        log += callee.rows()
        caller.start()
        log += caller.rows()                # before the request is sent, once
        reply = callee.serve(caller.request())
        log += callee.rows()                # before the reply is sent
        assert caller.replied(reply) is Answer.YES
        log += caller.rows()
    assert check('\\n'.join(log)).is_lawful

One row of a log. A process appends it after all the rows that it has read, and then learns it:

    header, log = Setup(nodes=2, partitions=3).header(), []
    with Replica(header) as replica:
        log.append(replica.recover(1))      # this alone changes nothing
        replica.learn(log[replica.rows:])   # the rows of other processes, too
        assert replica.next(1) == 'start,1'

Each status of the library but OK is an exception, with a class of its own below `BullyError`. A call that raises one
has changed nothing, except `Replica.learn`: it keeps the rows before the one that it refuses, and raises NotLearned,
whose `cause` is the class of the refusal. An argument that the library's type can't hold, as 70000 partitions, is a
ValueError.
"""
from __future__ import annotations

from typing import TYPE_CHECKING, Any

# A type checker takes what is imported by its own name, or by a star, for public.
from . import faults, group, values
from .agent import Agent as Agent
from .faults import *
from .group import *
from .library import load as load
from .replica import Replica as Replica
from .values import *

if TYPE_CHECKING:
    from .member import Member as Member

__version__ = '0.6.0'  # that of the library, which `version` returns


def __getattr__(name: str) -> Any:
    """Loads `Member` when it is first used: it needs more of the standard library than the rest."""
    if name == 'Member':
        from .member import Member

        return Member
    raise AttributeError(f'module {__name__!r} has no attribute {name!r}')


if not TYPE_CHECKING:
    __all__ = [*faults.__all__, *group.__all__, *values.__all__, 'Agent', 'Member', 'Replica', 'load']
