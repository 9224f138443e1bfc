"""The driver `probes`, of which some benches time what it answers."""
import os
import sys
import time

sys.path.insert(0, f"{os.path.dirname(os.path.dirname(os.path.abspath(__file__)))}/tools")

import sources


def probes():
    """The program. Prints which one is timed; without it the bench ends."""
    program, bench = sources.program_of("probes"), os.path.basename(sys.argv[0])
    where = os.path.relpath(program, sources.TOP)
    if not os.path.exists(program):
        sys.exit(f"bench/{bench}: {where} isn't built: `tools/prove probes` proves and builds it")
    built = time.strftime("%Y-%m-%d %H:%M", time.localtime(os.path.getmtime(program)))
    of_what = "the current sources" if sources.is_current("probes") else "OLDER SOURCES than the current ones: `tools/prove probes` builds it anew"
    print(f"bench/{bench}: times {where} of {built}, built of {of_what}", flush=True)
    return program
