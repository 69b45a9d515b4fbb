"""Runs of the program that are refused memory, files or output; see refusals.sh."""
import json
import os
import subprocess
import sys

PROGRAM, FOLDER, STEP = os.path.abspath(sys.argv[1]), sys.argv[2], int(sys.argv[3])
LIBRARY, ACCOUNT = f"{FOLDER}/refusals.so", f"{FOLDER}/account"
KINDS = ["memory", "open", "read", "write"]
EVERY = 10**9

LONG, TEXT = {"type": "Long"}, {"type": "String"}


def record(**attributes):
    return {"type": "Record", "attributes": attributes}


CONTEXT = record(n=LONG, name=TEXT, roles={"type": "Set", "element": TEXT}, addr={"type": "Extension", "name": "ipaddr"},
                 price={"type": "Extension", "name": "decimal"})
APPLIES = {"principalTypes": ["User"], "resourceTypes": ["Doc"], "context": {"type": "Asked"}}
SCHEMA = {"": {
    "commonTypes": {"Asked": CONTEXT},
    "entityTypes": {
        "Group": {"memberOfTypes": ["Group"]},
        "User": {"memberOfTypes": ["Group"], "shape": record(boss={"type": "Entity", "name": "User"}, nick={**TEXT, "required": False})},
        "Doc": {"shape": record(owner={"type": "Entity", "name": "User"}), "tags": TEXT},
    },
    "actions": {"all": {}, "edit": {"memberOf": [{"id": "all"}], "appliesTo": APPLIES}, "view": {"appliesTo": APPLIES}},
}}
OLD = '''@id("old")
permit(principal in Group::"staff", action, resource) when { context.name like "a*" && principal has nick && principal.nick == "x" };
permit(principal, action == Action::"view", resource) when { resource.owner == principal || context.roles.contains("admin") };
forbid(principal, action in [Action::"all"], resource) unless { context.n < 10 && context.addr.isInRange(ip("10.0.0.0/8")) };
'''
NEW = OLD + '''permit(principal, action, resource) when { context.price.lessThan(decimal("0.5")) && resource.hasTag("k") && resource.getTag("k") == "v" };
'''
ILL_TYPED = OLD + 'permit(principal, action, resource) when { context.n + "a" == 1 };\n'
FILES = {"s": json.dumps(SCHEMA), "old": OLD, "new": NEW, "ill": ILL_TYPED}
IMPLIES = "--schema s --policies old --against new --query implies"
COMMANDS = [
    f"analyse {IMPLIES} --budget 1000",
    "analyse --schema s --policies new --against old --query implies --budget 1000",
    "analyse --schema s --policies ill --query never-errors --budget 1000",
    f"log {IMPLIES} --budget 1000 --env 0",
    f"check {IMPLIES} --env 0 --log l",
    "replay --schema s --policies new --world w",
]
tried = wrong = 0


def run(words, out=subprocess.PIPE, **refused):
    """The status of a run, what it writes, and what came of it: the counts of calls, and the file whose call failed."""
    settings = {key.upper(): str(value) for key, value in refused.items()}
    settings |= {"LD_PRELOAD": LIBRARY, "ACCOUNT": ACCOUNT}
    try:
        ended = subprocess.run([PROGRAM, *words.split()], cwd=FOLDER, stdout=out, stderr=subprocess.STDOUT, env=settings, timeout=60, close_fds=False)
    except subprocess.TimeoutExpired:
        return 124, b"", None
    account = None
    if os.path.exists(ACCOUNT):
        with open(ACCOUNT) as lines:
            *counts, failed = lines.read().split(maxsplit=4)
        os.remove(ACCOUNT)
        account = dict(zip(KINDS, map(int, counts))), failed.strip()
    return ended.returncode, ended.stdout or b"", account


def tell(comes_out, words, ended, **refused):
    """Counts a run, and prints one that didn't come out."""
    global tried, wrong
    tried += 1
    if not comes_out:
        wrong += 1
        print(f"{words}: {refused}: status {ended[0]}, {ended[1][-200:]!r}", flush=True)


def is_whole_front(text, whole):
    return whole.startswith(text) and (not text or text.endswith(b"\n"))


def is_unread(words, ended):
    """Whether a run says of the file whose call failed that it can't be read, and nothing else."""
    asked = words.split()
    options = dict(zip(asked[1::2], asked[2::2]))
    word = next((option[2:] for option, name in options.items() if ended[2] and name == ended[2][1]), None)
    return ended[:2] == (20, f"error 20 {word}\n".encode())


def refuse(words, whole, kind, first, last, way):
    """Tries one refusal, and sees whether the run ends as it may."""
    refused = {"refused": kind, "first": first, "last": last, "way": way}
    ended = run(words, **refused)
    unharmed = ended[:2] == whole[:2]
    memory = ended[0] == 30 and is_whole_front(ended[1], whole[1])
    unwritten = ended[0] == 21 and whole[1].startswith(ended[1])
    comes_out = {
        "memory": unharmed or memory,
        "EINTR": unharmed,
        "one": unharmed,
        "ENOMEM": memory,
    }.get(kind if kind == "memory" else way, unwritten if kind == "write" else is_unread(words, ended))
    tell(comes_out, words, ended, **refused)


def refuse_all(words, whole):
    counts, _ = whole[2]
    for number in range(0, counts["memory"], STEP):
        refuse(words, whole, "memory", number, number, "")
        refuse(words, whole, "memory", number, EVERY, "")
    for kind, ways in ("open", ["EIO", "EINTR", "ENOMEM"]), ("read", ["EIO", "EINTR", "ENOMEM", "one"]), ("write", ["EIO", "EINTR", "none", "one", "half"]):
        for number in range(counts[kind]):
            for way in ways:
                refuse(words, whole, kind, number, number, way)
            refuse(words, whole, kind, number, EVERY, "EIO")
    for way in "one", "EIO":
        refuse(words, whole, "read", 0, EVERY, way)
        refuse(words, whole, "write", 0, EVERY, way)


def refuse_output(words, whole):
    """A full disk, and a pipe that nobody reads."""
    with open("/dev/full", "wb") as full:
        ended = run(words, full)
    tell(ended[0] == 21, words, ended, out="a full disk")
    reading, writing = os.pipe()
    os.close(reading)
    ended = run(words, writing)
    os.close(writing)
    tell(ended[0] == 21, words, ended, out="a pipe that nobody reads")


def write(name, text):
    with open(f"{FOLDER}/{name}", "wb") as out:
        out.write(text if isinstance(text, bytes) else text.encode())


def main():
    for name, text in FILES.items():
        write(name, text)
    for words in COMMANDS:
        before = tried
        whole = run(words)
        tell(whole[0] in (0, 1, 13) and whole[2], words, whole)
        if words.startswith("log"):
            write("l", whole[1])
        if b" counterexample " in whole[1]:
            write("w", whole[1].split(b" counterexample ")[1].split(b"\n")[0])
        if whole[2]:
            refuse_all(words, whole)
            refuse_output(words, whole)
        print(f"{tried - before} runs of {words}: status {whole[0]}, {whole[2] and whole[2][0]}", flush=True)
    print(f"{tried} runs, of which {wrong} didn't come out")
    sys.exit(1 if wrong else 0)


main()
