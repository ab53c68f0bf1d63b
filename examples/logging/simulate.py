#!/usr/bin/env python3
"""Simulates a group whose nodes elect a coordinator by messages that take their time, and writes its log as a trace.

    simulate.py SEED [--say-all] [--bug BUG] [--skew SKEW]

The log is a trace of version 1. With --say-all it is one of version 3: each row of a call says which call it is, to
whom, and how it was answered, and behind each row at which the vector of a node may change stands a claim of all that
the node stores, also where nothing changed: so a change that was left out shows there. No row says more than what the
node that writes it knows.

With a bug, the first row that is wrong by it is told on standard error, as 'row node', where there is one. With a skew
each node's clock is wrong by up to so much, where a message takes 1 to 9, and the log is put into order by these
clocks. """
import argparse
import heapq
import itertools
import random
import sys
from pathlib import Path

NODES, PARTITIONS, END = 4, 7, 800
BUGS = {
    'impatient': 'gives a call up after a while, though its callee is up',
    'deaf': 'goes on with its procedure though it was halted',
    'greedy': 'plans over all nodes, though some are down',
    'ghost': 'a message runs though its caller has crashed since',
    'loyal': 'follows whoever announces itself, though another one halted it',
    'willing': 'gets normal by a Ready though it was halted since its caller announced itself',
}
# These show at once only where all is said.
TOLD_BUGS = {
    'astray': 'sends a Halt to another node than the one whose turn it is',
    'boastful': 'answers Yes to AreYouNormal though it is not Normal',
    'garbled': 'stores another table than the one that came with Ready',
    'forgetful': 'leaves a node that answered its Halt out of the up set',
    'masked': 'does not keep who halted it',
    'hoarding': 'keeps its up set when it begins to halt others',
}


class Node:
    def __init__(self, number):
        self.number, self.status, self.up = number, 'down', set()
        self.coordinator = self.halter = self.table = self.procedure = self.stopped = self.call = None


class Call:
    def __init__(self, caller, name, callee):
        self.caller, self.name, self.callee, self.table = caller, name, callee, caller.table
        self.procedure, self.answer = caller.procedure, None

    def told(self):
        return self.name, str(self.callee.number)


def number_of(node):
    return str(node.number) if node else '-'


def rising(nodes):
    return sorted(nodes, key=lambda node: node.number)


def numbers_text(numbers):
    return ' '.join(map(str, numbers)) or '-'


class Group:
    def __init__(self, seed, bug=None, says_all=False):
        self.random, self.bug, self.says_all, self.wrong = random.Random(seed), bug, says_all, None
        self.now, self.queue, self.count, self.rows = 0, [], itertools.count(), []
        self.nodes = [Node(place + 1) for place in range(NODES)]
        for node in self.nodes:
            self.later(1, 9, self.recover, node)
            self.later(20, 40, self.alarm, node)
        while self.queue[0][0] < END:
            self.now, _, action, what = heapq.heappop(self.queue)
            action(*what)

    def later(self, least, most, action, *what):
        time = self.now + self.random.uniform(least, most)
        heapq.heappush(self.queue, (time, next(self.count), action, what))

    def slips(self, bug):
        return self.bug == bug and self.random.random() < 0.3

    # ---- the log

    def write(self, writer, row, *further, wrong=False):
        if self.says_all:
            row = ','.join([row, *further])
        self.rows.append((self.now, writer, row))
        if wrong and not self.wrong:
            self.wrong = f'{len(self.rows) + 1} {row.split(",")[1]}'

    def show(self, node, wrong=False):
        shown = f'saw,{node.number},{node.status},{number_of(node.coordinator)}'
        up = numbers_text(other.number for other in rising(node.up))
        self.write(node, shown, number_of(node.halter), up, numbers_text(node.table or []), wrong=wrong)

    def show_all(self, node, wrong=False):
        if self.says_all:
            self.show(node, wrong)

    # ---- nodes come up and crash

    def recover(self, node):
        self.write(node, f'recover,{node.number}')
        node.status = 'election'
        self.begin(node, self.election(node))
        self.show_all(node)
        self.later(50, 400, self.crash, node)

    def crash(self, node):
        self.write(node, f'crash,{node.number}')
        node.__init__(node.number)  # it forgets all, also its call
        self.show_all(node)
        for other in self.nodes:
            if other.call and other.call.callee is node and other.call.answer and self.random.random() < 0.5:
                self.lose(other.call)  # the answer was under way
        self.later(5, 60, self.recover, node)

    # ---- procedures: each says what comes next, and is told the outcome of a call

    def election(self, node):
        while True:
            for other in self.nodes[node.number :]:
                if (yield 'are-you-up', other) == 'yes':
                    return
            yield 'move', None
            node.status, node.halter = 'election', node
            if self.bug != 'hoarding':
                node.up = set()
            for other in reversed(self.nodes[: node.number - 1]):
                if (yield 'halt', other) == 'yes' and not self.slips('forgetful'):
                    node.up.add(other)
            yield 'move', None
            node.status, node.coordinator = 'reorganization', node
            if not (yield from self.tell(node, 'new-coordinator')):
                continue
            yield 'move', None
            yield 'plan', None
            if not (yield from self.tell(node, 'ready')):
                continue
            yield 'move', None
            node.status = 'normal'
            return

    def tell(self, node, name):
        for other in reversed(rising(node.up)):
            if (yield name, other) == 'failed':
                return False
        return True

    def check(self, node):
        for other in self.nodes:
            if other is not node and (yield 'are-you-normal', other) == 'no':
                return (yield from self.election(node))

    def inquire(self, node):
        if (yield 'are-you-up', node.coordinator) == 'failed':
            yield from self.election(node)

    def alarm(self, node):
        self.later(20, 40, self.alarm, node)
        if node.status == 'down' or node.procedure:
            return
        leads = node.coordinator is node and node.status == 'normal'
        self.write(node, f'check,{node.number}' if leads else f'timeout,{node.number}')
        if leads:
            self.begin(node, self.check(node))
        elif node.status == 'election':
            self.begin(node, self.election(node))
        elif node.coordinator is not node:
            self.begin(node, self.inquire(node))

    def begin(self, node, procedure):
        node.procedure = procedure
        self.go_on(node)

    def go_on(self, node, outcome=None):
        try:
            self.later(0, 3, self.act, node, node.procedure, *node.procedure.send(outcome))
        except StopIteration:
            node.procedure = None

    def act(self, node, procedure, name, callee):
        wrong = procedure is node.stopped
        if node.procedure is not procedure:
            return  # it was halted or crashed meanwhile
        if node.call:
            self.later(1, 1, self.act, node, procedure, name, callee)  # an orphan is still under way
        elif callee:
            node.call = Call(node, name, self.address(node, name, callee))
            astray = node.call.callee is not callee
            self.write(node, f'start,{node.number}', *node.call.told(), wrong=wrong or astray)
            self.later(1, 9, self.arrive, node.call)
            if self.bug == 'impatient' and self.random.random() < 0.02:
                self.later(1, 9, self.lose, node.call)
        elif name == 'plan':
            node.table = self.owners(node)
            row = f'plan,{node.number},{numbers_text(node.table)}'
            self.write(node, row, wrong=wrong or self.plans_greedily(node))
            self.go_on(node)
            self.show_all(node)
        else:
            self.write(node, f'move,{node.number}', wrong=wrong)
            self.go_on(node)
            self.show_all(node, self.bug == 'hoarding' and node.status == 'election' and node.up)

    def address(self, node, name, callee):
        if name == 'halt' and self.slips('astray'):
            return self.random.choice([other for other in self.nodes if other not in (node, callee)])
        return callee

    def owners(self, node):
        members = self.nodes if self.bug == 'greedy' else [node, *rising(node.up)]
        return [members[place % len(members)].number for place in range(PARTITIONS)]

    def plans_greedily(self, node):
        return self.bug == 'greedy' and len(node.up) + 1 < NODES

    # ---- the life of a call

    def arrive(self, call):
        caller, callee = call.caller, call.callee
        if caller.call is not call or call.answer:
            if self.bug == 'ghost' and not caller.call and callee.status != 'down':
                self.write(callee, f'run,{caller.number}', *call.told(), 'yes', wrong=True)
        elif callee.status == 'down':
            self.lose(call)
        else:
            asks = call.name == 'are-you-normal'
            call.answer = 'no' if asks and not self.says_normal(callee) else 'yes'
            boasts = asks and call.answer == 'yes' and callee.status != 'normal'
            self.write(callee, f'run,{caller.number}', *call.told(), call.answer, wrong=boasts)
            self.serve(call, caller, callee)
            self.later(1, 9, self.come_back, call, call.answer)

    def says_normal(self, callee):
        return callee.status == 'normal' or self.slips('boastful')

    def serve(self, call, caller, callee):
        wrong = False
        if call.name == 'are-you-normal':
            return
        if call.name == 'halt':
            self.halt(callee, caller)
            wrong = callee.halter is not caller
        elif call.name == 'new-coordinator':
            follows = callee.halter is caller and callee.status == 'election'
            wrong = self.bug == 'loyal' and not follows
            if follows or wrong:
                callee.status, callee.coordinator = 'reorganization', caller
        elif call.name == 'ready':
            wrong = self.bug == 'willing' and callee.status == 'election'
            if wrong or (callee.coordinator is caller and callee.status == 'reorganization'):
                callee.status, callee.table = 'normal', call.table
                if self.slips('garbled'):
                    callee.table = call.table[1:] + call.table[:1]
                    wrong = callee.table != call.table
        self.show(callee, wrong)

    def halt(self, callee, caller):
        callee.status = 'election'
        if not self.slips('masked'):
            callee.halter = caller
        if self.bug == 'deaf':
            callee.stopped = callee.procedure or callee.stopped
        else:
            callee.procedure = None
            if callee.call:
                self.later(1, 20, self.drop, callee.call)

    def lose(self, call):
        if call.caller.call is call and call.answer != 'failed':
            is_wrong = call.callee.status != 'down'
            self.write(call.caller, f'lose,{call.caller.number}', *call.told(), wrong=is_wrong)
            call.answer = 'failed'
            self.later(0, 3, self.come_back, call, 'failed')

    def drop(self, call):
        if call.caller.call is call and not call.answer:
            self.write(call.caller, f'drop,{call.caller.number}', *call.told())
            call.caller.call = None  # and it never arrives

    def come_back(self, call, answer):
        caller = call.caller
        if caller.call is call and call.answer == answer:
            goes_on = caller.procedure is call.procedure
            outcome = answer if goes_on else 'discarded'
            is_wrong = self.says_all and call.procedure is caller.stopped
            self.write(caller, f'return,{caller.number}', *call.told(), outcome, wrong=is_wrong)
            caller.call = None
            if goes_on:
                self.go_on(caller, answer)
            if goes_on and call.name == 'halt':
                self.show_all(caller, wrong=answer == 'yes' and call.callee not in caller.up)


def write_log(options, seed, log, wrong):
    """Writes the log of a seed, and by which row and node it is wrong, if by any."""
    group = Group(seed, options.bug, options.say_all)
    clock = {node: random.Random(f'{seed} {node.number}').uniform(0, options.skew) for node in group.nodes}
    weights = numbers_text([1] * NODES)
    print(
        f'bully,3,{NODES},{PARTITIONS},{weights},clear' if options.say_all else f'bully,1,{NODES},{PARTITIONS}',
        file=log,
    )
    for _, writer, row in sorted(group.rows, key=lambda row: row[0] + clock[row[1]]):
        print(row, file=log)
    if group.wrong:
        print(group.wrong, file=wrong)


def main():
    words = argparse.ArgumentParser(description=__doc__, formatter_class=argparse.RawDescriptionHelpFormatter)
    words.add_argument('seed', type=int)
    words.add_argument('--say-all', action='store_true')
    words.add_argument('--bug', choices=[*BUGS, *TOLD_BUGS])
    words.add_argument('--skew', type=float, default=0)
    words.add_argument(
        '--into', type=Path, metavar='FOLDER', help='write SEED.log and SEED.wrong of each seed from 1 to this one'
    )
    options = words.parse_args()
    if options.bug in TOLD_BUGS and not options.say_all:
        words.error(f'{options.bug} shows only with --say-all')
    if not options.into:
        write_log(options, options.seed, sys.stdout, sys.stderr)
        return
    for seed in range(1, options.seed + 1):
        with open(options.into / f'{seed}.log', 'w') as log, open(options.into / f'{seed}.wrong', 'w') as wrong:
            write_log(options, seed, log, wrong)


main()
