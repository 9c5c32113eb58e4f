"""Compares a driver that answers with the library with reference.py, case by case.

    check.py --driver PROGRAM [--seed S] [--count N]    the boundary cases, then N random ones
    check.py --driver PROGRAM --replay LINE             one case, with both results
    check.py --self                                     the reference behind the line protocol, against itself
    check.py --serve                                    answers cases on standard input as the driver does

Exit status: 0 if every result agrees and the boundary cases led to every reply, 1 if not, 2 if the driver cannot be run.
"""

import argparse
import collections
import itertools
import os
import subprocess
import sys
import time

import cases
import protocol

BATCH = 2000
MOST_SECONDS = 120  # for a batch; a driver that hangs is a difference too
MOST_SHOWN = 10
MOST_DIFFERENCES = 1000
LONGEST_RESULT_SHOWN = 400


def serve():
    for line in sys.stdin:
        print(protocol.result_line(*protocol.case_of_line(line)), flush=True)


def run_driver(driver, lines):
    """The driver's output, and how it ended if it did not end well."""
    cases_given = "".join(line + "\n" for line in lines).encode()
    try:
        run = subprocess.run(driver, input=cases_given, capture_output=True, timeout=MOST_SECONDS)
    except subprocess.TimeoutExpired as stuck:
        return (stuck.stdout or b"").decode(), f"driver did not end within {MOST_SECONDS} s"
    fault = run.stderr[-300:].decode(errors="replace").strip()
    return run.stdout.decode(), f"driver ended with status {run.returncode} {fault}" if run.returncode else ""


def driver_results(driver, lines):
    """One result for each line. If the driver ends early or badly, the case at which it ended gets the way it ended."""
    output, ending = run_driver(driver, lines)
    results = output.split("\n")[:-1]
    if len(results) < len(lines):
        results.append(ending or "driver ended without a result")
    elif ending:
        results[-1] += f" {ending}"
    elif len(results) > len(lines):
        results[len(lines) - 1] += " driver printed more results than there are cases"
    return results[:len(lines)]


def batches(all_cases):
    numbered = enumerate(all_cases)
    while batch := list(itertools.islice(numbered, BATCH)):
        # An empty slice is passed with and without a pointer in turn.
        yield [(call, arguments, protocol.case_line(call, arguments, number % 2 == 0))
               for number, (call, arguments) in batch]


class Tally:
    def __init__(self):
        self.compared = collections.Counter()
        self.replies = collections.Counter()
        self.different = collections.Counter()

    def take(self, call, line, expected, found):
        self.compared[call] += 1
        self.replies[call, expected.split()[0]] += 1
        if expected != found:
            self.different[call] += 1
            if sum(self.different.values()) <= MOST_SHOWN:
                print(f"DIFFERENCE\n  case      {line}\n  reference {shown(expected, found)}\n"
                      f"  driver    {shown(found, expected)}")

    def replies_of(self, call):
        """How often the reference gave each reply of a call that has replies."""
        return {int(reply[6:]): count for (of, reply), count in self.replies.items()
                if of == call and reply.startswith("reply=")}

    def unreached(self):
        """The replies that no case led to, in words."""
        return [f"{call} {number}" for call, numbers in cases.REPLIES.items()
                for number in sorted(numbers - self.replies_of(call).keys())]

    def report(self, show_replies):
        for call in protocol.CALLS:
            if self.compared[call]:
                print(f"{call:28} {self.compared[call]:8} compared {self.different[call]:6} different")
                if show_replies:
                    self.report_replies(call)
        print(f"{'all':28} {sum(self.compared.values()):8} compared {sum(self.different.values()):6} different")

    def report_replies(self, call):
        numbers = self.replies_of(call)
        if numbers:
            print("    replies " + ", ".join(f"{number}: {numbers[number]}" for number in sorted(numbers)))


def shown(result, other):
    """Of a long result what follows from the word on that differs in the other."""
    if len(result) <= LONGEST_RESULT_SHOWN:
        return result
    begin = result.rfind(" ", 0, len(os.path.commonprefix([result, other]))) + 1
    return ("..." if begin else "") + result[begin:begin + LONGEST_RESULT_SHOWN] + "..."


def compare(driver, all_cases, tally):
    for batch in batches(all_cases):
        while batch:
            results = driver_results(driver, [line for _, _, line in batch])
            for (call, arguments, line), found in zip(batch, results):
                tally.take(call, line, protocol.result_line(call, arguments), found)
            if sum(tally.different.values()) > MOST_DIFFERENCES:
                print(f"stopped: over {MOST_DIFFERENCES} differences")
                return
            batch = batch[len(results):]  # goes on behind a case that ended the driver


def replay(driver, line):
    expected = protocol.result_line(*protocol.case_of_line(line))
    found = driver_results(driver, [line])[0]
    print(f"reference {expected}\ndriver    {found}\n{'equal' if expected == found else 'DIFFERENT'}")
    return 0 if expected == found else 1


def arguments_given():
    parser = argparse.ArgumentParser(description=__doc__, formatter_class=argparse.RawDescriptionHelpFormatter)
    parser.add_argument("--driver", help="the driver, linked with the library")
    parser.add_argument("--self", action="store_true", help="answer with the reference through the line protocol")
    parser.add_argument("--serve", action="store_true", help="be the driver of --self")
    parser.add_argument("--replay", metavar="LINE", help="one case; - takes it from standard input")
    parser.add_argument("--seed", type=int, default=1)
    parser.add_argument("--count", type=int, default=20000, help="random cases behind the boundary cases")
    parser.add_argument("--no-boundaries", action="store_true", help="only the random cases")
    parser.add_argument("--only", metavar="CALL", action="append", help="only cases of this call")
    parser.add_argument("--replies", action="store_true", help="show how often the reference gives each reply")
    return parser.parse_args()


def chosen_cases(given):
    chosen = itertools.islice(cases.random_cases(given.seed), given.count)
    if not given.no_boundaries:
        chosen = itertools.chain(cases.boundary_cases(given.seed), chosen)
    return (case for case in chosen if not given.only or case[0] in given.only)


def main():
    given = arguments_given()
    if given.serve:
        serve()
        return 0
    if not given.driver and not given.self:
        print("a driver is needed: --driver PROGRAM or --self", file=sys.stderr)
        return 2
    driver = [sys.executable, __file__, "--serve"] if given.self else [*os.environ.get("RUN", "").split(), given.driver]
    try:
        if given.replay:
            return replay(driver, sys.stdin.readline() if given.replay == "-" else given.replay)
        tally, begun = Tally(), time.time()
        compare(driver, chosen_cases(given), tally)
    except OSError as fault:
        print(f"the driver cannot be run: {fault}", file=sys.stderr)
        return 2
    tally.report(given.replies)
    print(f"seed {given.seed}, {time.time() - begun:.1f} s")
    unreached = [] if given.no_boundaries or given.only else tally.unreached()
    if unreached:
        print(f"replies that no case leads to: {', '.join(unreached)}")
    return 1 if tally.different or unreached else 0


if __name__ == "__main__":
    sys.exit(main())
