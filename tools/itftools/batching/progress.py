"""What a batch says while it runs: a line for each delivery, and on a terminal how far it is."""
import sys
import time


class Progress:
    """Lines on the standard output; where the standard error is a terminal, the state of all below them."""

    def __init__(self, count, kept):
        self.count, self.done, self.first = count, kept, kept
        self.began, self.is_shown = time.time(), sys.stderr.isatty()

    def told(self, line):
        """Says a line, and shows the state anew."""
        self.done += 1
        self.clear()
        print("[%d/%d] %s" % (self.done, self.count, line), flush=True)
        if self.is_shown and self.done < self.count:
            sys.stderr.write("%d of %d, %s left" % (self.done, self.count, clock(self.left())))
            sys.stderr.flush()

    def left(self):
        """The seconds that are left, as those that are done took."""
        return (time.time() - self.began) / max(self.done - self.first, 1) * (self.count - self.done)

    def clear(self):
        if self.is_shown:
            sys.stderr.write("\r\033[K")
            sys.stderr.flush()


def clock(seconds):
    return "%d:%02d:%02d" % (seconds // 3600, seconds // 60 % 60, seconds % 60)
