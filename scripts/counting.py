"""The count that scripts end with."""


def count(tries):
    """Takes what was tried, each with what is wrong there, if anything is, and tells that and the two counts; returns
    the status, which is 0 where nothing is wrong."""
    passed = failed = 0
    for name, wrong in tries:
        passed, failed = passed + (not wrong), failed + bool(wrong)
        if wrong:
            print(f"{name}: {wrong}", flush=True)
    print(f"{passed} passed, {failed} failed")
    return 1 if failed else 0
