"""Three nodes elect a coordinator over a log, which here is a list."""
from typing import List

from bully import Replica, Setup

log: List[str] = []
group = Replica(Setup(nodes=3, partitions=5).header())


def append(row: str) -> None:
    log.append(row)  # in a store: after exactly the rows that were learned, or not at all
    group.learn([row])


for node in 1, 2, 3:
    append(group.recover(node))
while row := group.next(1) or group.next(2) or group.next(3):
    append(row)

for node in 1, 2, 3:
    print(node, group.status(node), group.coordinator(node))
print(*group.last_table or ())
