"""The refusals of the library: an exception for each of its statuses."""
from __future__ import annotations

from typing import TYPE_CHECKING

from .header import own

_STATUSES = own().statuses()
FAULTS: dict[int, type[BullyError]] = {}  # by status


class BullyError(Exception):
    """The library refused a call, for the reason that its status names. Nothing has changed, but see NotLearned."""

    status: int = 0

    def __init_subclass__(cls, status: str = '') -> None:
        """A class may have a status of its own: the one that has this name in `bully.h`."""
        super().__init_subclass__()
        if status:
            cls.status = _STATUSES[status]
            FAULTS[cls.status] = cls

    def __init__(self, message: str = '') -> None:
        super().__init__(message or (type(self).__doc__ or '').rstrip('.'))


class Refused(BullyError):
    """An event that can't happen now."""


class BadArgument(BullyError):
    """An argument that the call doesn't take."""


class LineFault(BullyError):
    """A line that isn't a request, or isn't a reply, with its first fault from the left."""


class TraceFault(BullyError):
    """A text that doesn't have the form of a trace, with its first fault. `row` is where that is, counted from 1."""

    row: int = 0


class NotLearned(BullyError):
    """A row of a log isn't learned, nor are the rows after it. `cause` is the exception that names the reason: one
    below Refused if the row's event is refused; RowDiffers; BadRow or TooManyRows; or OutOfMemory. `taken` is how many
    rows before it were learned, and stay so; `row` is its number in the log, whose header is row 1; `status` is that of
    the cause."""

    taken: int = 0
    row: int = 0
    cause: type[BullyError] = BullyError


class Full(Refused, status='FULL'):
    """There are as many events as the setup allows."""


class BadNode(Refused, status='BAD_NODE'):
    """The setup has no such node."""


class IsDown(Refused, status='IS_DOWN'):
    """The node is Down."""


class IsUp(Refused, status='IS_UP'):
    """The node recovers, but isn't Down."""


class Busy(Refused, status='BUSY'):
    """A check or a timeout of a node that isn't idle."""


class NoStep(Refused, status='NO_STEP'):
    """The node doesn't want to do that next."""


class SlotBusy(Refused, status='SLOT_BUSY'):
    """The node has a call under way."""


class NoCall(Refused, status='NO_CALL'):
    """There is no such call."""


class CalleeDown(Refused, status='CALLEE_DOWN'):
    """The request comes to a node that is Down."""


class CalleeUp(Refused, status='CALLEE_UP'):
    """A call of a trace is lost though its callee is up."""


class BadTable(Refused, status='BAD_TABLE'):
    """The planned table isn't balanced over the node and its up set."""


class NotOrphan(Refused, status='NOT_ORPHAN'):
    """The call isn't an orphan."""


class Null(BadArgument, status='NULL'):
    """A pointer is null that must not be. This package passes none."""


class Closed(BadArgument, status='CLOSED'):
    """The agent, the replica or the member is closed."""


class Open(BadArgument, status='OPEN'):
    """The handle is already open. This package opens none twice."""


class OutOfMemory(BullyError, status='OUT_OF_MEMORY'):
    """An allocation failed."""


class Short(BullyError, status='SHORT'):
    """The room for the result is too small. This package makes more room by itself."""


class BadNodes(BadArgument, status='BAD_NODES'):
    """A setup needs 1 node at least, and has NODES_MAX at most."""


class BadPartitions(BadArgument, status='BAD_PARTITIONS'):
    """A setup needs 1 partition at least, and has PARTITIONS_MAX at most."""


class BadLimit(BadArgument, status='BAD_LIMIT'):
    """A setup allows 1 event at least, and EVENTS_MAX at most."""


class BadWeights(BadArgument, status='BAD_WEIGHTS'):
    """There must be as many weights as nodes, each from 1 to WEIGHT_MAX."""


class TableLength(BadArgument, status='TABLE_LENGTH'):
    """A table must have as many owners as there are partitions."""


class TableOwner(BadArgument, status='TABLE_OWNER'):
    """An owner isn't a node of the setup."""


class NoMember(BadArgument, status='NO_MEMBER'):
    """A table needs a member at least."""


class BadEvent(BadArgument, status='BAD_EVENT'):
    """This isn't the number of a kind of event. This package passes none."""


class BadRowsMax(BadArgument, status='BAD_ROWS_MAX'):
    """A member's log needs room for 22 rows for each node at least, and for EVENTS_MAX rows at most."""


class BadTtl(BadArgument, status='BAD_TTL'):
    """A member's ttl must be from a millisecond to a day."""


class BadKept(BadArgument, status='BAD_KEPT'):
    """Leases keep more or fewer partitions than are given. This package always gives as many."""


class BadAnswer(BadArgument, status='BAD_ANSWER'):
    """This isn't the number of an answer of a store. This package passes none."""


class LineWord(LineFault, status='LINE_WORD'):
    """The line doesn't start with `ask`, or with `tell`, or isn't UTF-8."""


class LineCaller(LineFault, status='LINE_CALLER'):
    """The line doesn't name a node of the setup as the caller."""


class LineNumber(LineFault, status='LINE_NUMBER'):
    """The line doesn't have the number of a call below the bound on events."""


class LineCallee(LineFault, status='LINE_CALLEE'):
    """The line doesn't name a node of the setup as the callee."""


class LineKind(LineFault, status='LINE_KIND'):
    """The line doesn't name a call, or has a table after a call other than Ready."""


class LineTable(LineFault, status='LINE_TABLE'):
    """The line of a Ready doesn't have a table of the setup."""


class LineAnswer(LineFault, status='LINE_ANSWER'):
    """The line's answer is neither `yes` nor `no`."""


class BadHeader(TraceFault, status='BAD_HEADER'):
    """The first row isn't the header of a trace, or there is none."""


class BadRow(TraceFault, status='BAD_ROW'):
    """The row doesn't have the form of a row."""


class TooManyRows(TraceFault, status='TOO_MANY_ROWS'):
    """There are more than 1,000,000 rows after the header."""


class RowDiffers(BullyError, status='ROW_DIFFERS'):
    """A detail of the row, or its claim, is wrong."""


class BadConfig(BullyError, status='BAD_CONFIG'):
    """A configuration that isn't valid. The text is its first fault, as `docs/FORMATS.md` names it."""


class RowEnd(BadArgument, status='ROW_END'):
    """The last line doesn't have a line end. This package ends each row."""


def fault_of(status: int, row: int = 0) -> BullyError:
    """The exception of a status other than OK. A TraceFault names the row, if that is known."""
    if status not in FAULTS:
        unknown = BullyError(f'the library returned status {status}, which this package does not know')
        unknown.status = status
        return unknown
    fault = FAULTS[status]()
    if row and isinstance(fault, TraceFault):
        fault.row, fault.args = row, (f'row {row}: {fault.args[0]}',)
    return fault


def expect_ok(status: int, row: int = 0) -> None:
    if status:
        raise fault_of(status, row)


if not TYPE_CHECKING:  # the package exports each exception
    __all__ = [name for name, each in list(vars().items()) if isinstance(each, type) and issubclass(each, BullyError)]
