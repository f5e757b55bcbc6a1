"""What a test's last line tells of the tests that were skipped."""


def told_skips(tests):
    reasons = sorted({why for _, why in tests.skipped})
    return "; %d skipped: %s" % (len(tests.skipped), ", ".join(reasons)) if reasons else ", none skipped"
