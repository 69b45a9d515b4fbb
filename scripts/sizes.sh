#!/bin/sh
# Asks about policy sets of real size, and prints for each question the seconds of the processor, the kilobytes of memory (no fewer than the
# script itself takes, some 15,000), the status, what is said of how many kinds of request, and what was asked. A run is stopped after 300
# seconds (status 124). The status is 0 where each answer is the right one.
#   comparisons: 200 policies that compare `principal`, `resource.owner`, `context.tenant` and literals, in each of ten environments
#   groups:      100 policies over groups ten deep, roles as sets of strings, and tags, in each of ten environments
#   products:    whether `context.n * k == 7` can be, for ten k, and whether `context.n * 3 == 9` can
# usage: scripts/sizes.sh [PROGRAM [PART ..]]      with parts (comparisons, groups, products) these alone
set -u
cd "$(dirname "$0")/.." || exit 2
program=${1:-crates/cedar_symcc/out/cedar_symcc}
[ -x "$program" ] || { echo "no program at $program: rt ci at the top of the repository builds it"; exit 2; }
[ $# -gt 0 ] && shift
folder=$(mktemp -d)
trap 'rm -rf "$folder"' EXIT

python3 - "$program" "$folder" "$@" <<'PY'
import collections, json, os, subprocess, sys, time
program, folder, parts = sys.argv[1], sys.argv[2], sys.argv[3:] or ["comparisons", "groups", "products"]
ACTIONS = [f"act{i}" for i in range(10)]
wrong = 0

def ask(what, wanted, query, schema, policies, against=None):
    """Asks one question, and prints what is said; `wanted` has how many environments have which verdict."""
    global wrong
    for name, text in ("schema.json", json.dumps(schema)), ("p.cedar", policies), ("a.cedar", against or ""):
        with open(f"{folder}/{name}", "w") as out:
            out.write(text)
    words = ["analyse", "--schema", f"{folder}/schema.json", "--policies", f"{folder}/p.cedar", "--query", query, "--budget", "10000"]
    words += ["--against", f"{folder}/a.cedar"] if against else []
    with open(f"{folder}/out", "w") as out:
        run = subprocess.Popen([program, *words], stdout=out)
        used, status = waited(run, time.monotonic() + 300)
    with open(f"{folder}/out") as out:
        said = collections.Counter(verdict(line) for line in out.read().splitlines())
    wrong += said != wanted
    told = ", ".join(f"{count} {word}" for word, count in sorted(said.items())) or "nothing"
    print(f"{used.ru_utime + used.ru_stime:8.2f} s {used.ru_maxrss:9} kB  status {status:3}  {told:28}  {what}: {query}", flush=True)

def waited(run, until):
    """What a run has used, and its status; it is stopped at a time."""
    while True:
        pid, status, used = os.wait4(run.pid, os.WNOHANG)
        if pid:
            run.returncode = os.waitstatus_to_exitcode(status)
            return used, run.returncode
        if time.monotonic() > until:
            run.kill()
            used = os.wait4(run.pid, 0)[2]
            run.returncode = 124
            return used, run.returncode
        time.sleep(0.005)

def verdict(line):
    return "counterexample" if ": counterexample {" in line else line.rpartition(": ")[2]

def schema_of(types, context):
    """Users do ten things to documents."""
    applies = {"principalTypes": ["User"], "resourceTypes": ["Doc"], "context": {"type": "Record", "attributes": context}}
    return {"": {"entityTypes": types, "actions": {name: {"appliesTo": applies} for name in ACTIONS}}}

def record(**attributes):
    return {"type": "Record", "attributes": attributes}

STRING, LONG = {"type": "String"}, {"type": "Long"}
STRINGS, USER = {"type": "Set", "element": STRING}, {"type": "Entity", "name": "User"}

def ask_all(what, schema, policies, others, changed):
    """Four questions of policies, of the same in other words, and of policies one of which allows more."""
    ask(what, {"holds": 10}, "never-errors", schema, "\n".join(policies))
    ask(what, {"holds": 10}, "equivalent", schema, "\n".join(policies), "\n".join(others))
    ask(what, {"holds": 10}, "implies", schema, "\n".join(policies), "\n".join(changed))
    ask(what, {"counterexample": 10}, "implies", schema, "\n".join(changed), "\n".join(policies))

def comparison(i, turned):
    """Policy i, or the same with the sides of each comparison turned."""
    def equal(left, right):
        return f"{right} == {left}" if turned else f"{left} == {right}"
    user, owner, tenant = f'User::"user{i % 40}"', f'User::"user{(i * 7 + 3) % 40}"', f'"tenant{i % 25}"'
    match i % 4:
        case 0: return f'permit(principal == {user}, action, resource) when {{ {equal("context.tenant", tenant)} }};'
        case 1: return f'permit(principal, action == Action::"{ACTIONS[i // 4 % 10]}", resource) when {{ {equal("resource.owner", owner)} && {equal("context.tenant", tenant)} }};'
        case 2: return f'permit(principal, action, resource) when {{ {equal("principal", "resource.owner")} && {equal("context.tenant", tenant)} }};'
        case _: return f'forbid(principal, action, resource) when {{ {equal("principal", user)} && !({equal("resource.owner", "principal")}) && {equal("context.tenant", tenant)} }};'

def comparisons():
    schema = schema_of({"User": {}, "Doc": {"shape": record(owner=USER)}}, {"tenant": STRING})
    policies = [comparison(i, False) for i in range(200)]
    others = [comparison(i, True) for i in reversed(range(200))]
    more = 'permit(principal, action, resource) when { context.tenant == "tenant0" };'
    ask_all("200 comparisons", schema, policies, others, [*policies, more])

def in_groups(i, turned):
    """Policy i, or the same in other words."""
    level, group, role, team = i % 10, f"group{i // 10}", f"role{i % 12}", f"team{i % 7}"
    inside = f'principal in Level{level}::"{group}"'
    match i % 5:
        case 0: test = inside
        case 1: test = f'principal.roles.contains("{role}") && {inside}'
        case 2: test = f'principal.roles.containsAny(["{role}", "admin"]) && resource.owner in Level{level}::"{group}"'
        case 3: test = f'resource.hasTag("team") && resource.getTag("team") == "{team}" && {inside}'
        case _: test = f'principal.roles.containsAll(["{role}", "{team}"]) && !({inside})'
    if turned and i % 5 == 2:
        test = f'(principal.roles.contains("{role}") || principal.roles.contains("admin")) && resource.owner in Level{level}::"{group}"'
    if turned and i % 5 == 4:
        test = f'principal.roles.contains("{team}") && !({inside}) && principal.roles.contains("{role}")'
    return f'permit(principal, action, resource) when {{ {test} }};'

def groups():
    levels = {f"Level{i}": {"memberOfTypes": [f"Level{i + 1}"]} if i < 9 else {} for i in range(10)}
    user = {"memberOfTypes": ["Level0"], "shape": record(roles=STRINGS)}
    doc = {"shape": record(owner=USER), "tags": STRING}
    schema = schema_of({**levels, "User": user, "Doc": doc}, {})
    policies = [in_groups(i, False) for i in range(100)]
    others = [in_groups(i, True) for i in reversed(range(100))]
    more = 'permit(principal in Level9::"group99", action, resource);'
    ask_all("100 on groups, roles and tags", schema, policies, others, [*policies, more])

def products():
    view = {"appliesTo": {"principalTypes": ["User"], "resourceTypes": ["Doc"], "context": record(n=LONG)}}
    schema = {"": {"entityTypes": {"User": {}, "Doc": {}}, "actions": {"view": view}}}
    for factor, product in [(factor, 7) for factor in range(2, 12)] + [(3, 9)]:
        test = f"context.n * {factor} == {product}"
        wanted = "counterexample" if product % factor == 0 else "holds"
        ask(test, {wanted: 1}, "always-denies", schema, f"permit(principal, action, resource) when {{ {test} }};")

for part in parts:
    {"comparisons": comparisons, "groups": groups, "products": products}[part]()
print("each answer is right" if not wrong else f"{wrong} answers aren't right, or aren't there")
sys.exit(0 if not wrong else 1)
PY
