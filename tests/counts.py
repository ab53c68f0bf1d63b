"""Results. The last line of each program that tests is 'N passed, M failed', or 'N passed, M failed, K skipped' if
something isn't there that it takes to try them; its exit status is 0 if M is 0 and something was tried or skipped."""
import re

# (and what rattle-test says)
LAST = re.compile(r'(?:test result: \w+\. )?(\d+) passed[,;] (\d+) failed(?:, (\d+) skipped|;.*)?')


class Counts:
    """How many passed, how many failed, and how many were skipped."""

    def __init__(self) -> None:
        self.passed = self.failed = self.skipped = 0

    def hold(self, is_so: bool, what: str, *more: object) -> None:
        """Counts one; of one that failed it is told what it was, and what more is known."""
        if is_so:
            self.passed += 1
        else:
            self.failed += 1
            print(*filter(None, (f'FAILED: {what}', *(str(each).rstrip() for each in more))), sep='\n', flush=True)

    def skip(self, what: str, why: str) -> None:
        """Counts one that can't be tried here, and says which and why."""
        self.skipped += 1
        print(f'skipped: {what}: {why}', flush=True)

    def add(self, said: str, status: int, command: str) -> None:
        """Adds the counts of the last line that a command said. One that ended badly has to count a failure, and each
        has to count one at all."""
        lines = said.splitlines()
        last = LAST.fullmatch(lines[-1]) if lines else None
        passed, failed, skipped = (int(each or 0) for each in last.groups()) if last else (0, 0, 0)
        self.passed, self.failed, self.skipped = self.passed + passed, self.failed + failed, self.skipped + skipped
        if passed + failed + skipped == 0:
            self.hold(False, f'{command} ended with no last line that counts')
        if status and not failed:
            self.hold(False, f'{command} ended with status {status}')

    def join(self, others: 'Counts') -> None:
        """Adds what these counted."""
        self.passed, self.failed = self.passed + others.passed, self.failed + others.failed
        self.skipped += others.skipped

    def last(self) -> str:
        return f'{self.passed} passed, {self.failed} failed' + (f', {self.skipped} skipped' if self.skipped else '')

    def end(self) -> int:
        """Prints the last line, and gives the exit status."""
        if self.passed + self.failed + self.skipped == 0:
            self.hold(False, 'nothing was tried')
        print(self.last())
        return 1 if self.failed else 0
