#!/usr/bin/env python3
"""How the time of `reduce` grows: sets of 75, 150 and 300 policies of which each third does nothing are reduced, and each set is compared,
by `equivalent`, with itself less one of the first three policies; the longest of these three counts. Prints for each size the seconds of the
processor of both, and how many times as long the reduction takes. The status is 0 where each set loses just the policies that do nothing, and
no reduction takes longer than one comparison for each policy, and 3 where one does. A reduction is stopped after an hour.
usage: scripts/reduce_growth.py [PROGRAM [SIZE ..]]"""
import json, os, pathlib, resource, subprocess, sys, tempfile

top = pathlib.Path(__file__).resolve().parent.parent
program = os.path.abspath(sys.argv[1]) if len(sys.argv) > 1 else str(top / "crates/cedar_symcc/out/cedar_symcc")
sizes = [int(size) for size in sys.argv[2:]] or [75, 150, 300]
if not os.access(program, os.X_OK):
    sys.exit(f"no program at {program}: rt ci at the top of the repository builds it")

CONTEXT = {"mfa": {"type": "Boolean"}, "level": {"type": "Long"}}
SCHEMA = {"": {
    "entityTypes": {"User": {}, "Doc": {"shape": {"type": "Record", "attributes": {"owner": {"type": "Entity", "name": "User"}}}}},
    "actions": {"view": {"appliesTo": {"principalTypes": ["User"], "resourceTypes": ["Doc"],
                                       "context": {"type": "Record", "attributes": CONTEXT}}}},
}}


def rules(size):
    """Of three rules the third does nothing: what it permits the first permits too."""
    texts = []
    for number in range(size // 3):
        user, doc = f'User::"u{number}"', f'Doc::"d{number}"'
        texts.append(f"permit(principal == {user}, action, resource == {doc}) when {{ context.mfa }};")
        texts.append(f"permit(principal == {user}, action, resource) when {{ resource.owner == principal && {number} < context.level }};")
        texts.append(f"permit(principal == {user}, action, resource == {doc}) when {{ context.mfa && {number} < context.level }};")
    return texts


def seconds_of(words, folder):
    """The seconds of the processor that a run takes, its status, and what it writes."""
    begun = resource.getrusage(resource.RUSAGE_CHILDREN).ru_utime
    run = subprocess.run([program, *words], cwd=folder, capture_output=True, text=True, timeout=3600)
    return resource.getrusage(resource.RUSAGE_CHILDREN).ru_utime - begun, run.returncode, run.stdout


def measure(size, folder):
    """Whether a set loses just the rules that do nothing, and whether its reduction takes no longer than it may."""
    texts = rules(size)
    (folder / "p.cedar").write_text("\n".join(texts))
    compared, right = 0.0, True
    for place, wanted in (0, 1), (1, 1), (2, 0):
        (folder / "q.cedar").write_text("\n".join(texts[:place] + texts[place + 1:]))
        seconds, status, _ = seconds_of("analyse --schema s.json --policies p.cedar --against q.cedar --query equivalent --budget 10000".split(), folder)
        compared, right = max(compared, seconds), right and status == wanted
    reduced, status, said = seconds_of("reduce --schema s.json --policies p.cedar --budget 10000".split(), folder)
    dropped = [place for place, line in enumerate(said.splitlines()) if line.endswith(" dropped")]
    right = right and status == 0 and dropped == list(range(2, len(texts), 3))
    times = reduced / compared
    print(f"{len(texts):5} policies: reduce {reduced:8.2f} s, equivalent {compared:7.3f} s, {times:7.1f} times as long"
          f"{'' if right else ', NOT as it should be'}", flush=True)
    return right, times <= len(texts)


with tempfile.TemporaryDirectory() as name:
    folder = pathlib.Path(name)
    (folder / "s.json").write_text(json.dumps(SCHEMA))
    outcomes = [measure(size, folder) for size in sizes]
if not all(right for right, _ in outcomes):
    sys.exit(1)
sys.exit(0 if all(fast for _, fast in outcomes) else 3)
