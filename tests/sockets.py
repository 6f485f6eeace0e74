"""The program `rsmp-site` over real sockets, by subject: talk, polls, ends, links, time, state, files, floods, commands, operators, two
sites in a cabinet, hostile neighbours. Two tests at a time.

  sockets.py --stored            what the gate runs
  sockets.py --only NAME ..      these tests
  sockets.py --program PATH --only NAME ..     of another build of rsmp-site; one of 0.4 knows the options and replies of socket_floods
  sockets.py --long              300 kills, a supervisor that never reads, memory after an hour's flood as after a minute's
  sockets.py --kills COUNT [SEED]
  sockets.py --flood SECONDS
"""
import concurrent.futures
import pathlib
import sys
import tempfile
import time

import process
import socket_beside
import socket_commands
import socket_end
import socket_files
import socket_floods
import socket_hostile
import socket_links
import socket_operator
import socket_polled
import socket_records
import socket_state
import socket_talk
import socket_time
from process import Failed, Process

AT_ONCE = 2
# The longest first.
SUBJECTS = (socket_talk, socket_operator, socket_state, socket_files, socket_floods, socket_commands, socket_links, socket_time, socket_hostile,
            socket_end, socket_polled, socket_records, socket_beside)


def run(test, *more):
    with tempfile.TemporaryDirectory() as room:
        began = time.monotonic()
        try:
            said = test(room, *more)
        finally:
            Process.end_all(room)
        print(f"rsmp-site: {test.__name__}: {time.monotonic() - began:.0f} s{'; ' + said if said else ''}", flush=True)


def all_of(tests):
    failed = 0
    with concurrent.futures.ThreadPoolExecutor(AT_ONCE) as pool:
        runs = {pool.submit(run, test): test.__name__ for test in tests}
        for done in concurrent.futures.as_completed(runs):
            if done.exception():
                kind = "" if isinstance(done.exception(), Failed) else type(done.exception()).__name__ + ": "
                print(f"rsmp-site: {runs[done]}: FAILED: {kind}{done.exception()}", flush=True)
                failed += 1
    return 1 if failed else 0


def main(words):
    tests = [test for subject in SUBJECTS for test in subject.TESTS]
    if words == ["--stored"]:
        began, code = time.monotonic(), all_of(tests)
        print(f"rsmp-site: {len(tests)} tests over real sockets in {time.monotonic() - began:.0f} s{', some FAILED' if code else ''}")
        return code
    if words[:1] == ["--program"] and len(words) > 1:
        process.PROGRAM, words = pathlib.Path(words[1]).resolve(), words[2:]
    if words[:1] == ["--only"]:
        return all_of([test for test in tests + socket_links.LONG if test.__name__ in words[1:]])
    if words == ["--long"]:
        run(socket_state.kills, 300)
        run(socket_links.never_reads)
        run(socket_links.memory_in_a_flood, 60, 3600, 120)
        return 0
    if words[:1] == ["--kills"]:
        return run(socket_state.kills, *map(int, words[1:])) or 0
    if words[:1] == ["--flood"]:
        return run(socket_links.memory_in_a_flood, 60, int(words[1]), 120) or 0
    print(__doc__)
    return 2


if __name__ == "__main__":
    sys.exit(main(sys.argv[1:]))
