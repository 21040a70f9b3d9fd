"""The statuses with which the command ends, all in one place."""

DONE = 0
NOT_DONE = 1            # a line on standard error says why
WRONG_WORDS = 4         # as of itfcheck
# `batch` alone: the worst of its deliveries, by the status of itfcheck.
ACCEPTED, REJECTED, UNDECIDED, MODEL_REFUSED = 0, 1, 2, 3
NO_STATUS = 70          # a delivery was not judged and the program gave no status; or the batch itself failed
STOPPED = 130
# The statuses with which itfcheck judged a delivery; all others are no judgement.
JUDGED = {ACCEPTED: "ACCEPTED", REJECTED: "REJECTED", UNDECIDED: "UNDECIDED"}
TOLD = """Status: 0 done; 1 not done, with a line on standard error that says why; 4 the words are wrong. `batch` ends
with the worst of its deliveries: `itf batch --help` tells."""


def badness(status):
    """How bad the status of a delivery is: 0 is the best, then come 2 and 1, then the others by number."""
    return {ACCEPTED: 0, UNDECIDED: 1, REJECTED: 2}.get(status, status + 3)
