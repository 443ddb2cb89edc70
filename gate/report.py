"""What a run of ./test says: a heading for each stage with the time so far, each thing that was tried, the failures once
more at the end, and the last line 'N passed, M failed'."""
import resource
import threading
import time


def minutes(seconds):
    return f"{int(seconds) // 60}:{int(seconds) % 60:02}"


def processor_seconds():
    """The processor's seconds of all that this run started and that has ended."""
    used = resource.getrusage(resource.RUSAGE_CHILDREN)
    return used.ru_utime + used.ru_stime


class Report:
    def __init__(self, is_silent=False):
        self.began, self.spent, self.is_silent = time.monotonic(), 0, is_silent
        self.passed = 0
        self.failures = []
        self.printing = threading.Lock()

    def say(self, text):
        if not self.is_silent:
            with self.printing:
                print(text, flush=True)

    def so_far(self):
        return minutes(time.monotonic() - self.began)

    def heading(self, text):
        self.say(f"\n== {text} (so far {self.so_far()}, {minutes(self.spent + processor_seconds())} of processor)")

    def count_passed(self, count):
        self.passed += count

    def count_failed(self, text):
        self.failures.append(text)

    def passes(self, text):
        self.count_passed(1)
        self.say(text)

    def fails(self, text):
        self.count_failed(text)
        self.say(f"FAILED: {text}")

    def counts(self, is_well, text):
        """Says and counts what came out well or not."""
        (self.passes if is_well else self.fails)(text)

    def last_line(self):
        return f"{self.passed} passed, {len(self.failures)} failed"

    def finish(self):
        """Says how the run ended, and returns its exit status."""
        if self.failures:
            self.heading("What failed")
            for failure in self.failures:
                self.say(failure)
        self.heading("All")
        self.say(self.last_line())
        return 1 if self.failures else 0
