#!/usr/bin/env python3
"""`serve` that is refused one request for memory ends well, or by status 70, and never wrongly.

    trials/refused_memory_of_serve.py

It refuses the requests of the test of two workers that play a recording together, one in each run.
The test is served, ends with status 70, or its desk had no memory. The last requests are those of
the threads: if one is refused, jobs run one after another, so the test, whose jobs wait for each
other, gives up or doesn't end. Ends with status 1 if the test finds something wrong or crashes, or
if no request was refused.

Needs the tests of `satip_serve_tests` as built by `cd crates/satip_serve_tests && rt test`.

Packages: gcc libc6-dev
Files: crates/satip_serve_tests/out/satip_serve_tests_tests
Limit: 900 s
"""

import collections
import os
import sys
import tempfile

sys.dont_write_bytecode = True
from lib.checks import Checks
from lib.refusal import refused
from lib.server import TOP, preload

TESTS = os.path.join(TOP, "crates/satip_serve_tests/out/satip_serve_tests_tests")
TEST = "together::two_workers_play_a_recording_together"
SEGMENTATION_FAULT = (139, -11)


def main():
    checks, ends, number = Checks(), collections.Counter(), 1
    with tempfile.TemporaryDirectory(prefix="satip-") as folder:
        library = preload("refuse_nth", folder)
        while (ran := refused(library, number, [TESTS, TEST], b"")) is not None:
            status, output, errors = ran
            said = " ".join((output.decode(errors="replace") + errors).split())
            ends[f"status {status}: {said}"] += 1
            # A test that gave up has the wrong bytes.
            wrong = "wrong" in said and "gave_up" not in said
            if wrong or status in SEGMENTATION_FAULT:
                checks.check(False, f"request {number}: status {status}: {said[:120]}")
            number += 1
    for said, count in ends.most_common():
        print(f"{count:5} {said[:140]}")
    checks.check(number > 1, f"{number - 1} requests were refused, one in each run")
    checks.end()


if __name__ == "__main__":
    main()
