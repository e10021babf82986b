"""Runs of a program to which one request for memory is refused. Needs python3 alone."""

import os
import subprocess
import tempfile

LONGEST = 60


def refused(library, number, words, given):
    """Runs the words with one request refused, by refuse_nth.c.

    Returns status, output and errors; None if the run makes fewer requests. The status is 124 if it
    didn't end within 60 seconds.
    """
    with tempfile.TemporaryDirectory(prefix="satip-") as folder:
        mark = os.path.join(folder, "mark")
        # env begins without the library, so only the program's own requests count
        refuse = ["env", f"REFUSE_NTH={number}", f"REFUSE_MARK={mark}", f"LD_PRELOAD={library}"]
        words = ["timeout", str(LONGEST), *refuse, *words]
        ran = subprocess.run(words, input=given, capture_output=True, check=False)
        if not os.path.exists(mark):
            return None
    return ran.returncode, ran.stdout, ran.stderr.decode(errors="replace")
