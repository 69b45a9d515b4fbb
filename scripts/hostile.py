"""Runs of the program on files that were changed; see hostile.sh."""
import collections
import json
import os
import pathlib
import random
import re
import shutil
import subprocess
import sys
import tempfile

PROGRAM, FOLDER, COUNT, SEED = os.path.abspath(sys.argv[1]), sys.argv[2], int(sys.argv[3]), int(sys.argv[4])
LIMITED = ["sh", "-c", 'ulimit -t 10 && ulimit -v 8000000 && exec "$@"', "sh", PROGRAM]
draw = random.Random(SEED)

REFUSED = (10, 11, 12, 13, 14, 16, 17, 20, 22)
ENDED = (0, 1, 2, 3, *REFUSED, 30)
LINE = re.compile(rb'env [^\n]*: (holds|counterexample \{[^\n]*\}|unknown after [0-9]+ units|over limit)|no environments|accepted'
                  rb'|log 1|[lt] [^\n]*|world (not )?well-formed[^\n]*|policy[0-9]+ (satisfied|not satisfied|errs [A-Za-z]+)|decision (Allow|Deny)')
QUESTIONS = ["never-errors", "always-allows", "always-denies", "implies", "equivalent", "disjoint"]
OF_TWO = QUESTIONS[3:]

# -- What is changed ------------------------------------------------------------------------------------------------------------------

TAGGED = {"": {
    "commonTypes": {"Texts": {"type": "Set", "element": {"type": "String"}}},
    "entityTypes": {
        "Group": {"memberOfTypes": ["Group"]},
        "User": {"memberOfTypes": ["Group"], "shape": {"type": "Record", "attributes": {
            "boss": {"type": "Entity", "name": "User"}, "nick": {"type": "String", "required": False}, "age": {"type": "Long"}}}},
        "Doc": {"tags": {"type": "String"}, "shape": {"type": "Record", "attributes": {"owner": {"type": "EntityOrCommon", "name": "User"}}}}},
    "actions": {
        "all": {},
        "view": {"memberOf": [{"id": "all"}], "appliesTo": {"principalTypes": ["User"], "resourceTypes": ["Doc"], "context": {"type": "Record", "attributes": {
            "n": {"type": "Long"}, "mfa": {"type": "Boolean"}, "roles": {"type": "Texts"}, "name": {"type": "String"},
            "addr": {"type": "Extension", "name": "ipaddr"}, "price": {"type": "Extension", "name": "decimal"}}}}}}}}
CONDITIONS = [
    'context.mfa || context.name like "a*\\*"', 'principal in Group::"staff" && principal has nick && principal.nick == "x"',
    'context.n + 1 > principal.age', 'context.roles.containsAll(["a", "b"])', 'resource.hasTag("k") && resource.getTag("k") == "v"',
    'context.addr.isInRange(ip("10.0.0.0/8"))', 'context.price.lessThan(decimal("1.50"))', 'if context.mfa then resource.owner == principal else false',
    '{a: context.n, "b": [1, 2]} == {a: 3, "b": [2, 1]}', 'principal is User in Group::"g" || !(action in [Action::"all"])',
]
POLICIES = "\n".join(f"{'permit' if at % 3 else 'forbid'}(principal, action, resource) when {{ {it} }};" for at, it in enumerate(CONDITIONS))
EXAMPLES = [(it.parent.joinpath("schema.json").read_bytes(), it.read_bytes()) for it in sorted(pathlib.Path("examples").glob("*/*.cedar"))]
PAIRS = [(json.dumps(TAGGED).encode(), POLICIES.encode())] * len(EXAMPLES) + EXAMPLES
SCRAPS = [b"(", b")", b"{", b"}", b"[", b"]", b'"', b"\\", b"'", b",", b";", b":", b"::", b".", b"*", b"\\u{110000}", b"\\*", b"\xff", b"\xc3\x28", b"\x00", b"\n",
          b"//", b"?", b"@", b"-", b"- - - - -", b"!!!!!", b"9223372036854775808", b"-9223372036854775808", b"0", b"1e400", b"null", b"permit", b"when", b"unless",
          b"if", b"then", b"else", b"in", b"is", b"has", b"like", b"principal", b"context", b"ip(\"::1\")", b"decimal(\"1.2\")", b"__cedar", b"Action::\"view\""]
WORDS = [b"principal", b"action", b"resource", b"context", b"true", b"1", b'"a"', b"[1]", b"{}", b'ip("1.1.1.1")', b'decimal("1.0")', b'User::"a"', b"==", b"in", b"has",
         b"like", b"is", b"if", b"&&", b"||", b"!", b"+", b"*", b"<", b".contains(1)", b".containsAll([])", b'.getTag("a")', b'.hasTag("a")', b".isEmpty()", b".n", b".nick"]
VALUES = [None, 1, -5, 1.5, True, "String", "Long", "Entity", "Set", "Record", "User", "nope", "__cedar::Long", "a::b", "", {}, [], {"type": "Long"}, {"type": "Set"},
          {"type": "Record", "attributes": {}}, {"type": "Entity", "name": "Nope"}, {"type": "Extension", "name": "ipaddr"}, 2**63, -2**63 - 1,
          {"__entity": {"type": "User", "id": "x"}}, {"__extn": {"fn": "ip", "arg": "1.2.3.4"}}, {"__extn": {"fn": "decimal", "arg": "x"}}]
KEYS = ["type", "attributes", "element", "name", "shape", "memberOfTypes", "memberOf", "appliesTo", "principalTypes", "resourceTypes", "context", "tags", "required",
        "additionalAttributes", "annotations", "attrs", "parents", "uid", "id", "entities", "request", "__entity", "__extn", "fn", "arg", "other"]
NUMBERS = [b"0", b"-0", b"01", b"1", b"-1", b"2", b"999999999", b"-999999999", b"2147483647", b"2147483648", b"4294967297", b"999999999999999999",
           b"1000000000000000000", b"18446744073709551616", b"", b"-", b"+1", b"x", b"++", b"+-"]


def change_bytes(text):
    """Some bytes put in, taken out, changed or doubled."""
    text = bytearray(text)
    for _ in range(draw.choice([1, 1, 2, 4])):
        at = draw.randrange(len(text) + 1)
        match draw.randrange(5):
            case 0: del text[at:at + draw.randrange(1, 4)]
            case 1: text[at:at] = draw.choice(SCRAPS)
            case 2: text[at:at + 1] = bytes([draw.randrange(256)])
            case 3: text[at:at] = text[at:at + draw.randrange(1, 40)]
            case 4: text[at:at + 1] = draw.choice(SCRAPS)
    return bytes(text)


def cut(text):
    """A part of a text."""
    at = draw.randrange(len(text) + 1)
    return draw.choice([text[:at], text[at:], text[:at] + text[draw.randrange(at, len(text) + 1):]])


def double(text):
    return text * draw.choice([2, 2, 3, 50])


def nest(text):
    """A place of a text within many brackets."""
    at, times = draw.randrange(len(text) + 1), draw.choice([2, 90, 101, 130, 1001, 20000])
    opening, closing = draw.choice([(b"(", b")"), (b"[", b"]"), (b'{"a":', b"}"), (b"!", b""), (b"-", b""), (b"if true then ", b" else 1"), (b"{a: ", b"}"), (b"1 + ", b"")])
    return text[:at] + opening * times + draw.choice([b"", b"1", b"true", text[at:at + 9]]) + closing * draw.choice([times, times, times - 1]) + text[at:]


def change_words(text):
    """Some words exchanged."""
    words = re.split(rb"(\W+)", text)
    for _ in range(draw.choice([1, 1, 2, 3])):
        words[draw.randrange(len(words))] = draw.choice(WORDS) if draw.random() < 0.7 else draw.choice(words)
    return b"".join(words)


def places_of(tree, above=()):
    yield above
    for key, part in (tree.items() if isinstance(tree, dict) else enumerate(tree) if isinstance(tree, list) else ()):
        yield from places_of(part, (*above, key))


def change_tree(text):
    """Some members of a JSON text exchanged, renamed or taken out."""
    try:
        tree = json.loads(text)
    except ValueError:
        return change_bytes(text)
    for _ in range(draw.choice([1, 1, 2, 3])):
        places = [it for it in places_of(tree) if it]
        if not places:
            break
        *above, key = draw.choice(places)
        inside = tree
        for step in above:
            inside = inside[step]
        value = inside[key]
        match draw.randrange(6):
            case 0: del inside[key]
            case 1: inside[key] = draw.choice(VALUES)
            case 2 if isinstance(inside, dict): inside[draw.choice(KEYS)] = value
            case 3 if isinstance(inside, dict): inside[f"{key}x"] = inside.pop(key)
            case 4 if isinstance(inside, list): inside.append(value)
            case _: inside[key] = [value]
    return json.dumps(tree, ensure_ascii=draw.random() < 0.5).encode("utf-8", "surrogatepass")


def change_lines(text):
    """Some numbers and lines of a log exchanged."""
    lines = text.split(b"\n")
    for _ in range(draw.choice([1, 1, 2])):
        at = draw.randrange(len(lines))
        words = lines[at].split(b" ")
        word = draw.randrange(len(words))
        match draw.randrange(7):
            case 0: words[word] = draw.choice(NUMBERS)
            case 1: del words[word]
            case 2: words.insert(word, draw.choice([b"0", b"1", b"-1", words[word]]))
            case 3: words[word] = str(draw.randrange(1, 3 * len(lines) + 20)).encode()
            case 4: words[word] = b"-" + words[word]
            case 5:
                lines.insert(at, draw.choice(lines))
                continue
            case 6:
                del lines[at]
                lines = lines or [b""]
                continue
        lines[at] = b" ".join(words)
    return b"\n".join(lines)


def changed(text, kind):
    """A text that was changed in one of the ways that suit it."""
    own = {"s": change_tree, "w": change_tree, "p": change_words, "l": change_lines}[kind]
    return draw.choice([own, own, own, change_bytes, change_bytes, cut, double, nest])(text)


# -- Runs -----------------------------------------------------------------------------------------------------------------------------

statuses = collections.Counter()
wrong = 0


def run(words, folder=FOLDER):
    """The status of a run and what it writes, errors of the process among it. It is ended after ten seconds of the processor."""
    ended = subprocess.run([*LIMITED, *words], cwd=folder, stdout=subprocess.PIPE, stderr=subprocess.STDOUT, close_fds=False)
    return ended.returncode, ended.stdout


def is_lawful(status, text):
    """Whether a run ended with a status of the table and lines as they may be."""
    if status in REFUSED:
        return re.fullmatch(rb"error %d [^\n]+\n|error 12 BadShape at \n|error 17 BadWorld at \n" % status, text) is not None
    lines = text.split(b"\n")
    return status in ENDED and lines.pop() == b"" and all(LINE.fullmatch(it) for it in lines)


def write(name, text):
    with open(f"{FOLDER}/{name}", "wb") as out:
        out.write(text)


def asked(question):
    words = ["--schema", "s", "--policies", "p", "--query", question]
    return words + ["--against", "a"] if question in OF_TWO else words


def budget():
    return ["--budget", str(draw.choice([1, 10, 100]))]


def keep(words, why, ended):
    """Tells of a run that didn't come out, and keeps its files."""
    global wrong
    wrong += 1
    kept = tempfile.mkdtemp(prefix="hostile-")
    for name in os.listdir(FOLDER):
        shutil.copy(f"{FOLDER}/{name}", kept)
    print(f"{why}: {' '.join(words)} in {kept}: status {ended[0]}, {ended[1][-200:]!r}", flush=True)


def try_words(words):
    """Runs a command, and sees whether it ends as it may."""
    ended = run(words)
    statuses[ended[0]] += 1
    if not is_lawful(*ended):
        keep(words, "not as it may end", ended)
    return ended


def try_question():
    """A question of files one or two of which were changed; the world of a counterexample is replayed."""
    (schema, policies), (_, against) = draw.choice(PAIRS), draw.choice(PAIRS)
    which = draw.choice(["s", "s", "p", "p", "a", "sp"])
    write("s", changed(schema, "s") if "s" in which else schema)
    write("p", changed(policies, "p") if "p" in which else policies)
    write("a", changed(against, "p") if "a" in which else against)
    question = draw.choice(OF_TWO if which == "a" else QUESTIONS)
    ended = try_words(["analyse", *asked(question), *budget()])
    if ended[0] == 1:
        line = draw.choice([it for it in ended[1].split(b"\n") if b": counterexample " in it])
        write("w", line.split(b": counterexample ", 1)[1])
        words = ["replay", "--schema", "s", "--policies", "p", "--world", "w"]
        replayed = run(words)
        if b"__entity" not in open(f"{FOLDER}/s", "rb").read() and not (replayed[0] == 0 and replayed[1].startswith(b"world well-formed\n")):
            keep(words, "a printed world isn't well-formed", replayed)


def world():
    """A world of the schema with tags."""
    user, doc, view = {"type": "User", "id": "a"}, {"type": "Doc", "id": "d"}, {"type": "Action", "id": "view"}
    stored = lambda uid, attrs, parents=(), tags=None: {"uid": uid, "attrs": attrs, "parents": list(parents), "tags": tags or {}}
    context = {"n": 1, "mfa": True, "roles": ["a", "b"], "name": "ab", "addr": {"__extn": {"fn": "ip", "arg": "1.2.3.4/32"}}, "price": {"__extn": {"fn": "decimal", "arg": "1.0000"}}}
    every = {"type": "Action", "id": "all"}
    return json.dumps({"entities": [stored(user, {"boss": {"__entity": user}, "age": 3}, [{"type": "Group", "id": "staff"}]), stored({"type": "Group", "id": "staff"}, {}),
                                    stored(doc, {"owner": {"__entity": user}}, (), {"k": "v"}), stored(view, {}, [every]), stored(every, {})],
                       "request": {"principal": user, "action": view, "resource": doc, "context": context}}).encode()


def try_world():
    """A world that was changed, replayed."""
    schema, policies = PAIRS[0]
    write("s", schema)
    write("p", policies)
    write("w", changed(world(), "w"))
    try_words(["replay", "--schema", "s", "--policies", "p", "--world", "w"])


def try_log():
    """A log that was changed, or that is another question's: accepted only where the property holds of these very files."""
    schema, texts = draw.choice(LOGS)
    (policies, against, question, log), other = draw.choice(texts), draw.choice(texts)
    if draw.random() < 0.3:
        log = other[3]
    if draw.random() < 0.3:
        policies = change_words(policies) if draw.random() < 0.5 else other[0]
    if draw.random() < 0.8:
        log = changed(log, "l")
    for name, text in ("s", schema), ("p", policies), ("a", against), ("l", log):
        write(name, text)
    words = ["check", *asked(question), "--env", "0", "--log", "l"]
    if try_words(words)[1] == b"accepted\n":
        ended = run(["analyse", *asked(question), "--budget", "100000"])
        if ended[1].split(b"\n")[0].rpartition(b": ")[2] != b"holds":
            keep(words, "accepted, and it doesn't hold", ended)


def logs():
    """Schemas, each with questions that hold: their policies and their logs."""
    schema = json.dumps(TAGGED).encode()
    found = []
    for at, it in enumerate(CONDITIONS):
        twice = f"permit(principal, action, resource) when {{ {it} }};\n"
        more = twice + f"permit(principal, action, resource) when {{ {CONDITIONS[(at + 1) % len(CONDITIONS)]} }};\n"
        for policies, against, question in (twice, more, "implies"), (more, more, "equivalent"), (f"forbid(principal, action, resource) when {{ {it} }};\n", twice, "disjoint"):
            for name, text in ("s", schema), ("p", policies.encode()), ("a", against.encode()):
                write(name, text)
            status, log = run(["log", *asked(question), "--budget", "1000", "--env", "0"])
            if status == 0 and log.startswith(b"log 1\n"):
                found.append((policies.encode(), against.encode(), question, log))
    if not found:
        sys.exit("no log was written")
    return [(schema, found)]


LOGS = logs()
for number in range(COUNT):
    draw.choice([try_question, try_question, try_world, try_log])()
told = ", ".join(f"{count} with {status}" for status, count in sorted(statuses.items()))
print(f"{COUNT} changed files, seed {SEED}: {told}; {wrong} didn't come out")
sys.exit(1 if wrong else 0)
