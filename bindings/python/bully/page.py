"""The page of a member: its group for people, in HTML."""
from __future__ import annotations

import base64
import hashlib
import html
from collections import Counter
from collections.abc import Mapping

from .display import shown_name, time_text
from .values import Status
from .view import Doing, GroupView, NodeView, PartitionView

OWNERS_MAX = 8  # whose partitions of a plan are counted in words, at most
# What an event is, in words, for its node.
EVENTS = {
    'recover': '{} is up', 'crash': '{} counts as down', 'check': '{} checks whether all is well',
    'timeout': '{} has waited for too long', 'start': '{} starts a call to another node',
    'run': 'a call of {} is carried out', 'lose': 'a call of {} fails', 'return': 'a call of {} returns',
    'drop': 'an old call of {} is dropped', 'move': '{} takes its next step',
    'plan': '{} plans how many partitions each node owns',
}  # fmt: skip

STYLE = """
body { font: 15px/1.45 system-ui, sans-serif; margin: 1.5rem auto; max-width: 72rem; padding: 0 1rem; }
body { color: #1c2430; background: #fff; }
h1 { font-size: 1.25rem; margin: 0 0 .2rem; } h2 { font-size: 1rem; margin: 1.4rem 0 .4rem; }
table { border-collapse: collapse; width: 100%; }
th, td { text-align: left; padding: .25rem .7rem .25rem 0; border-bottom: 1px solid #e3e7ec; vertical-align: top; }
th { font-weight: 600; color: #566173; } code { font: 13px ui-monospace, monospace; }
.dot { display: inline-block; width: .65rem; height: .65rem; border-radius: 50%; margin-right: .45rem; }
.normal { background: #2e9e5b; } .reorganization { background: #d99a1c; }
.election { background: #c2571a; } .down { background: #b9c0ca; }
.cells { display: flex; flex-wrap: wrap; gap: 3px; }
.cell { border: 1px solid #cfd6df; border-radius: 3px; padding: .05rem .4rem; font-size: 13px; }
.waiting { background: #fdf0e4; } .moving, .stopping { background: #fbf6d4; } .small { color: #566173; }
"""

SCRIPT = """
async function follow() {
  for (;;) {
    try {
      const seen = document.body.dataset;
      const news = await fetch('/group?after=' + seen.events + '&epoch=' + seen.epoch);
      if (!news.ok) await new Promise(done => setTimeout(done, 2000));
      const text = await (await fetch('/')).text();
      const body = new DOMParser().parseFromString(text, 'text/html').body;
      document.body.innerHTML = body.innerHTML;
      document.body.dataset.events = body.dataset.events;
      document.body.dataset.epoch = body.dataset.epoch;
      document.body.style.opacity = 1;
    } catch (error) {
      document.body.style.opacity = 0.4;
      await new Promise(done => setTimeout(done, 2000));
    }
  }
}
follow();
"""

SCRIPT_SUM = base64.b64encode(hashlib.sha256(SCRIPT.encode()).digest()).decode()
SOURCES = f"default-src 'none'; style-src 'unsafe-inline'; script-src 'sha256-{SCRIPT_SUM}'; connect-src 'self'"
POLICY = f"{SOURCES}; frame-ancestors 'none'"


def page_of(name: str, group: GroupView, worker_text: str) -> str:
    """The page of the member of this name, with a text about its worker."""
    live = sum(node.is_live for node in group.nodes)
    title = f'{shown(name)}: token {group.token or "-"}, coordinator {shown(group.coordinator)}'
    return (
        '<!doctype html><html lang="en"><meta charset="utf-8"><meta name="viewport" content="width=device-width">'
        f'<title>{title}</title><noscript><meta http-equiv="refresh" content="3"></noscript><style>{STYLE}</style>'
        f'<body data-events="{group.events}" data-epoch="{group.epoch}"><h1>Group, as {shown(name)} sees it</h1>'
        f'<p class="small">coordinator <b>{shown(group.coordinator or "none")}</b>, '
        f'token <b>{group.token or "none"}</b>, {group.events} events in epoch {group.epoch}, '
        f'{group.mode}, {live} of {len(group.nodes)} nodes live{html.escape(group.more_text + worker_text)}</p>'
        f'<h2>Nodes</h2>{nodes_of(group)}<h2>Partitions</h2>{partitions_of(group)}'
        f'<h2>Last events</h2>{last_of(group)}</body><script>{SCRIPT}</script></html>'
    )


def nodes_of(group: GroupView) -> str:
    """The table of the nodes."""
    rows = ''.join(map(row_of, group.nodes))
    return f'<table><tr><th>node<th>status<th>live<th>coordinator<th>owns</tr>{rows}</table>'


def row_of(node: NodeView) -> str:
    """The row of a node. What the log says of one that isn't live may be of before its end, as in a pause."""
    status, owns = str(node.status), ' '.join(map(str, node.partitions)) or '-'
    is_gone = not node.is_live and node.status is not Status.DOWN
    colour, status_text = (str(Status.DOWN), f'not live, {status} before') if is_gone else (status, status)
    idle = ' (nobody works on these)' if is_gone and node.partitions else ''
    return (
        f'<tr><td>{shown(node.name)}<td><span class="dot {colour}"></span>{status_text}<td>{node.live_text}'
        f'<td>{shown(node.coordinator)}<td>{owns}{idle}</tr>'
    )


def partitions_of(group: GroupView) -> str:
    """The partitions, each with its owner, and with the node to which it moves."""
    cells = ''.join(cell_of(partition, each) for partition, each in enumerate(group.partitions))
    return f'<div class="cells">{cells}</div>'


def cell_of(partition: int, view: PartitionView) -> str:
    """A partition, with who may work on it by which token, and to whom it moves."""
    moves = '' if view.coming is None or view.coming == view.owner else f' to {shown(view.coming)}'
    stops = ', stops' if view.doing is Doing.STOPPING else ''
    owner = shown(view.owner)
    token = '' if view.token is None else f' title="token {view.token}"'
    return f'<span class="cell {view.doing.value}"{token}>{partition} <b>{owner}</b>{moves}{stops}</span>'


def last_of(group: GroupView) -> str:
    """The last rows, the newest first."""
    names = {str(node.node): node.name for node in group.nodes}
    rows = ''.join(
        f'<tr><td class="small">{row.number}<td class="small">{time_text(row.time) or "-"}'
        f'<td>{event_text(row.text, names)}<td><code class="small">{html.escape(row.text)}</code></tr>'
        for row in reversed(group.last)
    )
    return f'<table><tr><th>row<th>time (UTC)<th>event<th>as in the log</tr>{rows}</table>'


def event_text(row: str, names: Mapping[str, str]) -> str:
    """The event of a row in words, with the names of its nodes."""
    event, node, *more = [*row.split(','), '']
    words = EVENTS.get(event, event).format(f'<b>{shown(names.get(node, node))}</b>')
    if event != 'plan':
        return words
    counts = Counter(names.get(owner, owner) for owner in more[0].split())
    first = ', '.join(f'{shown(name)} {count}' for name, count in counts.most_common(OWNERS_MAX))
    return f'{words}: {first}{", .." if len(counts) > OWNERS_MAX else ""}'


def shown(name: str | None) -> str:
    """A name in a page: signs that can't be printed, or that change the direction of what follows, are shown as `?`."""
    return html.escape(shown_name(name))
