"""Families of questions that grow, each as policies for the program and as a script for an SMT solver; see bench.sh."""
import json
import os
import random
import re
import resource
import shutil
import subprocess
import sys

PROGRAM, FOLDER, SETS = os.path.abspath(sys.argv[1]), sys.argv[2], sys.argv[3]
WRONG = []
SOLVER = shutil.which("cvc5")
MOST_SECONDS = 60
SOLVER_WORDS = [SOLVER, "--lang=smt2", "--strings-exp"]
# Copies are counted by words: one instruction may copy a whole array, and valgrind counts it once for each byte of it.
COUNTED = os.environ | {"GLIBC_TUNABLES": "glibc.cpu.x86_rep_movsb_threshold=1000000000:glibc.cpu.x86_rep_stosb_threshold=1000000000"}


def schema(context, user=None, doc=None, actions=("view",), tags=None):
    """A schema in which users, who are in groups, view documents."""
    record = lambda fields: {"type": "Record", "attributes": fields}
    applies = {"appliesTo": {"principalTypes": ["User"], "resourceTypes": ["Doc"], "context": record(context)}}
    entities = {"Group": {"memberOfTypes": ["Group"]}, "User": {"memberOfTypes": ["Group"], "shape": record(user or {})}, "Doc": {"shape": record(doc or {})}}
    if tags:
        entities["Doc"]["tags"] = tags
    return json.dumps({"": {"entityTypes": entities, "actions": {it: applies for it in actions}}})


TRUTH, TEXT, LONG = {"type": "Boolean"}, {"type": "String"}, {"type": "Long"}
USER = {"type": "Entity", "name": "User"}


def truths(names):
    return schema({it: TRUTH for it in names})


def permits(conditions):
    return "".join(f"permit(principal, action, resource) when {{ {it} }};\n" for it in conditions)


def smt_or(parts):
    return f"(or false {' '.join(parts)})"


def smt_and(parts):
    return f"(and true {' '.join(parts)})"


def constants(names, sort="Bool"):
    return "".join(f"(declare-const {it} {sort})\n" for it in names)


def script(*lines):
    return "(set-logic ALL)\n" + "".join(lines) + "(check-sat)\n"


class Question:
    """One question: its files, its words, what is expected, and the script that is unsatisfiable where the property holds."""

    def __init__(self, schema, policies, query, holds, smt, against=None, environments=1):
        self.schema, self.policies, self.query, self.holds, self.smt, self.against, self.environments = schema, policies, query, holds, smt, against, environments


def refactoring(size):
    """Policies `c && (x || !y)`, against each of them split in two."""
    draw = random.Random(size)
    names = [f"a{it}" for it in range(max(6, size // 4))]
    rows = [draw.sample(names, 3) for _ in range(size)]
    one = permits(f"context.{c} && (context.{x} || !context.{y})" for c, x, y in rows)
    two = permits(it for c, x, y in rows for it in (f"context.{c} && context.{x}", f"context.{c} && !context.{y}"))
    left = smt_or(f"(and {c} (or {x} (not {y})))" for c, x, y in rows)
    right = smt_or(it for c, x, y in rows for it in (f"(and {c} {x})", f"(and {c} (not {y}))"))
    return Question(truths(names), one, "equivalent", True, script(constants(names), f"(assert (not (= {left} {right})))\n"), two)


def clauses(names, rows, holds):
    """Whether clauses have a common model, as the question whether a policy under them ever permits."""
    tests = " && ".join("(" + " || ".join(("!" if sign else "") + "context." + it for sign, it in row) + ")" for row in rows)
    smt = smt_and(smt_or(f"(not {it})" if sign else it for sign, it in row) for row in rows)
    return Question(truths(names), permits([tests]), "always-denies", holds, script(constants(names), f"(assert {smt})\n"))


def pigeons(size):
    """Pigeons in holes, one more than there are holes."""
    name = lambda pigeon, hole: f"p{pigeon}h{hole}"
    rows = [[(False, name(it, hole)) for hole in range(size)] for it in range(size + 1)]
    rows += [[(True, name(one, hole)), (True, name(other, hole))] for hole in range(size) for other in range(size + 1) for one in range(other)]
    return clauses([name(it, hole) for it in range(size + 1) for hole in range(size)], rows, True)


def random_clauses(size, seed=1000):
    """Random clauses of three literals at the threshold."""
    draw = random.Random(seed + size)
    names = [f"a{it}" for it in range(size)]
    rows = [[(draw.random() < 0.5, it) for it in draw.sample(names, 3)] for _ in range(int(4.26 * size))]
    return clauses(names, rows, None)


def environments(size):
    """One small question in many environments."""
    names = ["mfa", "managed"]
    actions = [f"act{it}" for it in range(size)]
    old = permits(["context.mfa && context.managed && principal == resource.owner"])
    new = permits(["!(!context.managed || !context.mfa) && resource.owner == principal"])
    smt = script(constants(["mfa", "managed"]), constants(["principal", "owner"], "String"), "(assert (not (= (and mfa managed (= principal owner)) (and (not (or (not managed) (not mfa))) (= owner principal)))))\n")
    return Question(schema({it: TRUTH for it in names}, doc={"owner": USER}, actions=actions), old, "equivalent", True, smt, new, size)


def entities(size):
    """Who may is listed one by one, and in the rewrite from the other end."""
    some = [f'principal == User::"u{it}"' for it in range(size)]
    old = permits(f"{it} && resource.owner == principal" for it in some)
    new = permits([" || ".join(f'resource.owner == User::"u{it}"' for it in reversed(range(size)))])
    left = smt_or(f'(and (= principal "u{it}") (= owner principal))' for it in range(size))
    right = smt_or(f'(= owner "u{it}")' for it in range(size))
    return Question(schema({}, doc={"owner": USER}), old, "implies", True, script(constants(["principal", "owner"], "String"), f"(assert (and {left} (not {right})))\n"), new)


def groups(size):
    """A chain of groups: who is in the first is in the last."""
    chain = " && ".join(f'Group::"g{it}" in Group::"g{it + 1}"' for it in range(size))
    old = permits([f'principal in Group::"g0" && {chain}'])
    new = permits([f'principal in Group::"g{size}"'])
    lines = ["(declare-fun up (String) (Set String))\n(declare-fun user () (Set String))\n"]
    for low in range(size + 1):
        lines.append(f'(assert (not (set.member "g{low}" (up "g{low}"))))\n(assert (=> (set.member "g{low}" user) (set.subset (up "g{low}") user)))\n')
        lines += [f'(assert (=> (set.member "g{low}" (up "g{it}")) (set.subset (up "g{low}") (up "g{it}"))))\n' for it in range(size + 1) if it != low]
    steps = smt_and(f'(set.member "g{it + 1}" (up "g{it}"))' for it in range(size))
    lines.append(f'(assert (and (set.member "g0" user) {steps} (not (set.member "g{size}" user))))\n')
    return Question(schema({}), old, "implies", True, script(*lines), new)


def sets(size):
    """Roles as sets of texts: all of some, and one by one."""
    roles = ", ".join(f'"r{it}"' for it in range(size))
    old = permits([f"context.roles.containsAll([{roles}]) && [{roles}].containsAll(context.asked)"])
    new = permits(["context.roles.containsAll(context.asked)"])
    row = f"(set.insert {' '.join(chr(34) + f'r{it}' + chr(34) for it in range(size))} (as set.empty (Set String)))"
    smt = script(constants(["roles", "asked"], "(Set String)"), f"(assert (and (set.subset {row} roles) (set.subset asked {row}) (not (set.subset asked roles))))\n")
    texts = {"type": "Set", "element": TEXT}
    return Question(schema({"roles": texts, "asked": texts}), old, "implies", True, smt, new)


def strings(size):
    """A name that is one of many, a hundred in a policy at most, none of which is another name."""
    old = permits(" || ".join(f'context.name == "n{it}"' for it in range(first, min(first + 100, size))) for first in range(0, size, 100))
    new = permits(['context.name != context.other && context.other == "x"', 'context.other != "x"'])
    left = smt_or(f'(= name "n{it}")' for it in range(size))
    return Question(schema({"name": TEXT, "other": TEXT}), old, "implies", True, script(constants(["name", "other"], "String"), f'(assert (and {left} (not (or (and (not (= name other)) (= other "x")) (not (= other "x"))))))\n'), new)


def patterns(size):
    """Folders, of which each excludes the others."""
    old = permits(f'resource.path like "/f{it}/*" && resource.path like "*.md"' for it in range(size))
    new = permits(['resource.path like "/f*/*.md"'])
    like = lambda text: "(str.in_re path (re.++ " + " ".join("(re.* re.allchar)" if it == "*" else f'(str.to_re "{it}")' for it in re.findall(r"\*|[^*]+", text)) + ' (str.to_re "")))'
    left = smt_or(f"(and {like(f'/f{it}/*')} {like('*.md')})" for it in range(size))
    return Question(schema({}, doc={"path": TEXT}), old, "implies", True, script(constants(["path"], "String"), f"(assert (and {left} (not {like('/f*/*.md')})))\n"), new)


def conditions(size):
    """One long condition of numbers and texts, against its parts in the other order."""
    tests = [f"(context.n{it} < {it} || context.t{it})" for it in range(size)]
    smt = [f"(or (bvslt n{it} (_ bv{it} 64)) t{it})" for it in range(size)]
    names = {f"n{it}": LONG for it in range(size)} | {f"t{it}": TRUTH for it in range(size)}
    text = script(constants([f"n{it}" for it in range(size)], "(_ BitVec 64)"), constants(f"t{it}" for it in range(size)), f"(assert (not (= {smt_and(smt)} {smt_and(smt[::-1])})))\n")
    return Question(schema(names), permits([" && ".join(tests)]), "equivalent", True, text, permits([" && ".join(tests[::-1])]))


def products(size):
    """Products of an unknown number by many factors, one of which is to be 7."""
    tests = " || ".join(f"context.n * {it + 2} == 7" for it in range(size))
    over = lambda k: f"(or (bvslt ((_ sign_extend 64) (_ bv9223372036854775807 64)) (bvmul ((_ sign_extend 64) n) (_ bv{k} 128))) (bvslt (bvmul ((_ sign_extend 64) n) (_ bv{k} 128)) ((_ sign_extend 64) (_ bv9223372036854775808 64))))"
    value, errs = "false", "false"
    for k in reversed(range(2, size + 2)):
        is_it = f"(= (bvmul n (_ bv{k} 64)) (_ bv7 64))"
        value, errs = f"(or {is_it} (and (not {errs}) {value}))", f"(or {over(k)} (and (not {is_it}) {errs}))"
    return Question(schema({"n": LONG}), permits([tests]), "always-denies", None, script(constants(["n"], "(_ BitVec 64)"), f"(assert (and {value} (not {errs})))\n"))


# ---- sets inside attributes and tags


def record_of(fields):
    return {"type": "Record", "attributes": fields}


def set_of(element):
    return {"type": "Set", "element": element}


def entity(name):
    return {"type": "Entity", "name": name}


def seen_by(principal, resource, types, context=None):
    """A schema of these entity types, in which a principal views a resource."""
    applies = {"appliesTo": {"principalTypes": [principal], "resourceTypes": [resource], "context": record_of(context or {})}}
    return json.dumps({"": {"entityTypes": types, "actions": {"view": applies}}})


def declared(*lines):
    return "".join(f"{it}\n" for it in lines)


def on_entities(*names):
    return declared(*(f"(declare-datatype {it} (({it.lower()} ({it}.id String))))" for it in names))


def met(one, other, element):
    return f"(not (= (set.inter {one} {other}) (as set.empty (Set {element}))))"


def widened(types, principal, resource, context, rows, rest, smt):
    """Whether policies that ask for more allow anything but the same ones without what is asked last."""
    old, new = permits(f"{row} && {last}" for row, last in zip(rows, rest)), permits(rows)
    return Question(seen_by(principal, resource, types, context), new, "implies", False, script(*smt), old)


def bosses(size):
    """Friends of an owner's bosses, one further up in each policy, who share a team with the document."""
    types = {"Team": {}, "User": {"shape": record_of({"boss": USER, "friends": set_of(USER), "teams": set_of(entity("Team"))})}, "Doc": {"shape": record_of({"owner": USER, "teams": set_of(entity("Team"))})}}
    rows = [f"resource.owner{'.boss' * it}.friends.contains(principal)" for it in range(size)]
    up = lambda it: "owner" if it == 0 else f"(boss {up(it - 1)})"
    first = [f"(set.member principal (friends {up(it)}))" for it in range(size)]
    both = [f"(and {it} {met('(teams principal)', 'wanted', 'Team')})" for it in first]
    known = declared("(declare-const principal User)", "(declare-const owner User)", "(declare-const wanted (Set Team))", "(declare-fun boss (User) User)", "(declare-fun friends (User) (Set User))", "(declare-fun teams (User) (Set Team))")
    return widened(types, "User", "Doc", None, rows, ["principal.teams.containsAny(resource.teams)"] * size, [on_entities("User", "Team"), known, f"(assert (and {smt_or(first)} (not {smt_or(both)})))\n"])


def tags(size):
    """Tags that are sets, one key a policy: those of the principal have all that those of the document have."""
    types = {"User": {"tags": set_of(TEXT)}, "Doc": {"tags": set_of(TEXT)}}
    rows = [f'principal.hasTag("k{it}") && resource.hasTag("k{it}")' for it in range(size)]
    rest = [f'principal.getTag("k{it}").containsAll(resource.getTag("k{it}"))' for it in range(size)]
    first = [f'(and (set.member "k{it}" mine) (set.member "k{it}" theirs))' for it in range(size)]
    both = [f'(and {row} (set.subset (theirs_at "k{it}") (mine_at "k{it}")))' for it, row in enumerate(first)]
    known = declared("(declare-const mine (Set String))", "(declare-const theirs (Set String))", "(declare-fun mine_at (String) (Set String))", "(declare-fun theirs_at (String) (Set String))")
    return widened(types, "User", "Doc", None, rows, rest, [known, f"(assert (and {smt_or(first)} (not {smt_or(both)})))\n"])


def listed_groups(size):
    """Who is in one of some groups that are written, and a folder that is among those of the principal."""
    types = {"Group": {}, "User": {"memberOfTypes": ["Group"], "shape": record_of({"groups": set_of(entity("Group"))})}, "Doc": {"memberOfTypes": ["Group"]}}
    rows = [f'principal in [Group::"a{it}", Group::"b{it}"]' for it in range(size)]
    first = [f'(or (set.member (group "a{it}") mine) (set.member (group "b{it}") mine))' for it in range(size)]
    both = [f"(and {it} {met('above', 'groups', 'Group')})" for it in first]
    known = declared("(declare-const mine (Set Group))", "(declare-const above (Set Group))", "(declare-const groups (Set Group))")
    return widened(types, "User", "Doc", None, rows, ["resource in principal.groups"] * size, [on_entities("Group"), known, f"(assert (and {smt_or(first)} (not {smt_or(both)})))\n"])


def managers(size):
    """A manager further up in each policy, who has all skills that a task needs."""
    types = {"Employee": {"shape": record_of({"manager": entity("Employee"), "skills": set_of(TEXT), "needed": set_of(TEXT), "teams": set_of(TEXT)})}, "Task": {"shape": record_of({"owner": entity("Employee"), "needed": set_of(TEXT)})}}
    rows = [f"principal == resource.owner{'.manager' * (it + 1)}" for it in range(size)]
    up = lambda it: "owner" if it == 0 else f"(manager {up(it - 1)})"
    first = [f"(= principal {up(it + 1)})" for it in range(size)]
    both = [f"(and {it} (set.subset needed (skills principal)))" for it in first]
    known = declared("(declare-const principal Employee)", "(declare-const owner Employee)", "(declare-const needed (Set String))", "(declare-fun manager (Employee) Employee)", "(declare-fun skills (Employee) (Set String))")
    return widened(types, "Employee", "Task", None, rows, ["principal.skills.containsAll(resource.needed)"] * size, [on_entities("Employee"), known, f"(assert (and {smt_or(first)} (not {smt_or(both)})))\n"])


def grants(size):
    """Sets of records with an entity and a text, among those of the owner and its bosses."""
    grant = record_of({"on": entity("Doc"), "right": TEXT})
    types = {"User": {"shape": record_of({"boss": USER, "grants": set_of(grant)})}, "Doc": {"shape": record_of({"owner": USER})}}
    rows = [f'principal{".boss" * it}.grants.contains({{on: resource, right: "r{it}"}})' for it in range(size)]
    up = lambda it: "principal" if it == 0 else f"(boss {up(it - 1)})"
    first = [f'(set.member (grant resource "r{it}") (grants {up(it)}))' for it in range(size)]
    both = [f"(and {it} (= principal owner))" for it in first]
    known = declared("(declare-datatype Grant ((grant (Grant.on Doc) (Grant.right String))))", "(declare-const principal User)", "(declare-const owner User)", "(declare-const resource Doc)", "(declare-fun boss (User) User)", "(declare-fun grants (User) (Set Grant))")
    return widened(types, "User", "Doc", None, rows, ["principal == resource.owner"] * size, [on_entities("User", "Doc"), known, f"(assert (and {smt_or(first)} (not {smt_or(both)})))\n"])


def named_tags(size):
    """Tags whose key is an attribute, of the owner and its bosses."""
    types = {"User": {"shape": record_of({"boss": USER, "team": TEXT})}, "Doc": {"shape": record_of({"owner": USER}), "tags": set_of(USER)}}
    who = [f"resource.owner{'.boss' * it}" for it in range(size)]
    rows = [f"resource.hasTag({it}.team) && resource.getTag({it}.team).contains(principal)" for it in who]
    up = lambda it: "owner" if it == 0 else f"(boss {up(it - 1)})"
    first = [f"(and (set.member (team {up(it)}) keys) (set.member principal (at (team {up(it)}))))" for it in range(size)]
    both = [f'(and {row} (= (team principal) (team {up(it)})))' for it, row in enumerate(first)]
    known = declared("(declare-const principal User)", "(declare-const owner User)", "(declare-const keys (Set String))", "(declare-fun boss (User) User)", "(declare-fun team (User) String)", "(declare-fun at (String) (Set User))")
    return widened(types, "User", "Doc", None, rows, [f"principal.team == {it}.team" for it in who], [on_entities("User"), known, f"(assert (and {smt_or(first)} (not {smt_or(both)})))\n"])


def profiles(size):
    """Optional records with an optional set, of the owner and its bosses."""
    profile = record_of({"roles": {**set_of(TEXT), "required": False}})
    types = {"User": {"shape": record_of({"boss": USER, "profile": {**profile, "required": False}})}, "Doc": {"shape": record_of({"owner": USER})}}
    who = [f"resource.owner{'.boss' * it}" for it in range(size)]
    rows = [f'{it} has profile && {it}.profile has roles && {it}.profile.roles.contains("r{number}")' for number, it in enumerate(who)]
    up = lambda it: "owner" if it == 0 else f"(boss {up(it - 1)})"
    first = [f'(and (has_profile {up(it)}) (has_roles {up(it)}) (set.member "r{it}" (roles {up(it)})))' for it in range(size)]
    both = [f"(and {row} (= principal {up(it)}))" for it, row in enumerate(first)]
    known = declared("(declare-const principal User)", "(declare-const owner User)", "(declare-fun boss (User) User)", "(declare-fun has_profile (User) Bool)", "(declare-fun has_roles (User) Bool)", "(declare-fun roles (User) (Set String))")
    return widened(types, "User", "Doc", None, rows, [f"principal == {it}" for it in who], [on_entities("User"), known, f"(assert (and {smt_or(first)} (not {smt_or(both)})))\n"])


def many_sets(size):
    """Many sets in the context, each within the one before."""
    names = [f"s{it}" for it in range(size)]
    chain = " && ".join(f"context.{one}.containsAll(context.{other})" for one, other in zip(names, names[1:])) or "true"
    old, new = permits([f'{chain} && context.{names[-1]}.contains("x")']), permits([f'context.{names[0]}.contains("x")'])
    smt = script(constants(names, "(Set String)"), f'(assert (and {smt_and(f"(set.subset {other} {one})" for one, other in zip(names, names[1:]))} (set.member "x" {names[-1]}) (not (set.member "x" {names[0]}))))\n')
    return Question(schema({it: set_of(TEXT) for it in names}), old, "implies", True, smt, new)


# ---- enumerated entity types


def written_set(texts):
    return f"(set.insert {' '.join(chr(34) + it + chr(34) for it in texts)} (as set.empty (Set String)))"


def of_roles(size, attributes, conditions, holds, smt, attribute):
    """Whether a hundred conditions a policy always allow, where there are so many roles."""
    roles = [f"r{it}" for it in range(size)]
    types = {"Role": {"enum": roles}, "User": {"shape": record_of(attributes)}, "Doc": {}}
    policies = permits(" || ".join(conditions[first:first + 100]) for first in range(0, len(conditions), 100))
    return Question(seen_by("User", "Doc", types), policies, "always-allows", holds, script(attribute, *smt))


def choices(size):
    """Each of the roles that there are is allowed."""
    smt = [f"(assert (set.member role {written_set(f'r{it}' for it in range(size))}))\n", f"(assert (not {smt_or(f'(= role {chr(34)}r{it}{chr(34)})' for it in range(size))}))\n"]
    return of_roles(size, {"role": entity("Role")}, [f'principal.role == Role::"r{it}"' for it in range(size)], True, smt, constants(["role"], "String"))


def missing_choices(size):
    """Each of the roles that there are is allowed, but one."""
    smt = [f"(assert (set.member role {written_set(f'r{it}' for it in range(size))}))\n", f"(assert (not {smt_or(f'(= role {chr(34)}r{it}{chr(34)})' for it in range(size - 1))}))\n"]
    return of_roles(size, {"role": entity("Role")}, [f'principal.role == Role::"r{it}"' for it in range(size - 1)], False, smt, constants(["role"], "String"))


def sets_of_choices(size):
    """A set of roles is empty, or has one of those that there are."""
    smt = [f"(assert (set.subset roles {written_set(f'r{it}' for it in range(size))}))\n", f"(assert (not {smt_or(f'(set.member {chr(34)}r{it}{chr(34)} roles)' for it in range(size))}))\n(assert (not (= roles (as set.empty (Set String)))))\n"]
    return of_roles(size, {"roles": set_of(entity("Role"))}, [f'principal.roles.contains(Role::"r{it}")' for it in range(size)] + ["principal.roles.isEmpty()"], True, smt, constants(["roles"], "(Set String)"))


FAMILIES = [(refactoring, (60, 120, 240, 480)), (pigeons, (5, 6, 7, 8)), (random_clauses, (60, 80, 100, 120, 140)), (environments, (1, 10, 100, 1000)), (entities, (40, 80, 160, 320)),
            (groups, (10, 20, 40, 80)), (sets, (10, 20, 40, 80)), (strings, (80, 320, 1280, 5120)), (patterns, (4, 8, 16, 32)), (conditions, (20, 40, 80, 160)), (products, (1, 2, 5, 10)),
            (bosses, (4, 8, 12, 16)), (tags, (4, 8, 12, 16)), (listed_groups, (4, 8, 12, 16)), (managers, (4, 8, 12, 16)), (grants, (4, 8, 12, 16)), (named_tags, (2, 4, 8)), (profiles, (4, 8, 16)), (many_sets, (10, 20, 30)),
            (choices, (2, 10, 100, 1000)), (missing_choices, (2, 10, 100, 1000)), (sets_of_choices, (2, 10, 100))]


GROWTH = [(refactoring, (60, 120, 240, 480, 960, 1920)), (entities, (40, 80, 160, 320)), (groups, (10, 20, 40, 80)), (sets, (10, 20, 40, 80)), (strings, (80, 160, 320, 640, 1280, 2560, 5120)),
          (patterns, (4, 8, 16, 32)), (conditions, (20, 40, 80, 160)), (random_clauses, (60, 80, 100, 120, 140)), (products, (1, 2, 5)), (pigeons, (5, 6, 7, 8, 9))]


def timed(words):
    """The fewest seconds of the processor, the start included, of some runs, and what was written; none after MOST_SECONDS."""
    best, text = None, ""
    for _ in range(3):
        with open(f"{FOLDER}/out", "w") as out:
            run = subprocess.Popen(words, stdout=out, stderr=subprocess.DEVNULL, preexec_fn=lambda: resource.setrlimit(resource.RLIMIT_CPU, (MOST_SECONDS, MOST_SECONDS)))
            _, status, used = os.wait4(run.pid, 0)
            run.returncode = os.waitstatus_to_exitcode(status)
        took = used.ru_utime + used.ru_stime
        if run.returncode < 0:
            return None, ""
        best = took if best is None else min(best, took)
        if took > 2:
            break
    with open(f"{FOLDER}/out") as out:
        text = out.read()
    return best, text


def write(name, text):
    with open(f"{FOLDER}/{name}", "w") as out:
        out.write(text)
    return f"{FOLDER}/{name}"


def verdicts(text):
    return [re.sub(r"^env .*?: (holds|counterexample|unknown|over limit).*$", r"\1", it) for it in text.split("\n") if it]


def told(answers):
    return ", ".join(f"{answers.count(it)} {it}" for it in dict.fromkeys(answers)) or "none"


def shown(seconds):
    return f"over {MOST_SECONDS}" if seconds is None else f"{seconds:.3f}"


def files(question):
    """The words of a question, once its files are written."""
    words = ["--schema", write("s.json", question.schema), "--policies", write("p.cedar", question.policies), "--query", question.query]
    if question.against is not None:
        words += ["--against", write("a.cedar", question.against)]
    return words


def mark(wrong, what):
    """A word beside an answer that isn't right or isn't there, which is kept for the status."""
    if wrong:
        WRONG.append(what)
    return " WRONG" if wrong else ""


def is_wrong(question, answers, wanted=None):
    """Whether answers aren't there, or aren't those that are known or that the solver gives."""
    known = "holds" if question.holds is True else wanted
    return len(answers) != question.environments or bool(known and set(answers) - {known, "holds" if question.holds is True else "unknown"})


def measure(family, size):
    question = family(size)
    words = files(question)
    seconds, text = timed([PROGRAM, "analyse", *words, "--budget", "100000"])
    answers = verdicts(text)
    units = ""
    if answers and set(answers) == {"holds"}:
        log = subprocess.run([PROGRAM, "log", *words, "--budget", "100000", "--env", "0"], capture_output=True, text=True).stdout
        units = str(max(log.count("\n") - 1, 0))
    other, said = timed([*SOLVER_WORDS, write("q.smt2", question.smt)]) if SOLVER else (None, "")
    wanted = {"unsat": "holds", "sat": "counterexample"}.get(said.strip())
    wrong = mark(is_wrong(question, answers, wanted), f"{family.__name__} {size}")
    if SOLVER and other is not None:
        other *= question.environments
    print(f"| {family.__name__} | {size} | {told(answers)}{wrong} | {units} | {shown(seconds)} | {shown(other) if SOLVER else ''} |", flush=True)


def questions_of(folder):
    """The words of each question of a policy set, with the answers that are wanted."""
    found = []
    with open(f"{folder}/answers.txt") as lines:
        for line in lines:
            if line.startswith("question"):
                found.append((line.split(": ", 1)[1].split(), []))
            elif line.strip():
                found[-1][1].append(line.strip().rsplit(": ", 1)[1])
    return found


def measure_set(name):
    folder = f"{SETS}/{name}"
    for number, (words, wanted) in enumerate(questions_of(folder)):
        words = [f"{folder}/{it}" if it.endswith(".cedar") else it for it in words]
        seconds, text = timed([PROGRAM, "analyse", "--schema", f"{folder}/schema.json", *words, "--budget", "10000"])
        answers = verdicts(text)
        scripts = sorted(it for it in os.listdir(f"{folder}/scripts") if it.startswith(f"q{number:02d}-")) if os.path.isdir(f"{folder}/scripts") else []
        taken = [timed([*SOLVER_WORDS, f"{folder}/scripts/{it}"])[0] for it in scripts] if SOLVER else []
        other = None if not taken or None in taken else sum(taken)
        wrong = mark(answers != wanted, f"{name} question {number}")
        print(f"| {name} question {number} | {len(wanted)} | {told(answers)}{wrong} | | {shown(seconds)} | {shown(other) if taken else ''} |", flush=True)


def instructions(words):
    """Millions of instructions that a run takes, or none after MOST_SECONDS."""
    try:
        run = subprocess.run(["valgrind", "--tool=cachegrind", "--cache-sim=no", f"--cachegrind-out-file={FOLDER}/counts", *words], capture_output=True, text=True, timeout=10 * MOST_SECONDS, env=COUNTED)
    except subprocess.TimeoutExpired:
        return None
    found = re.search(r"I +refs: +([0-9,]+)", run.stderr)
    return int(found.group(1).replace(",", "")) / 1e6 if found else None


def beyond(question, starts):
    """Millions of instructions of both beyond the start, or none. What the program answers is looked at."""
    answers = verdicts(subprocess.run([PROGRAM, "analyse", *files(question), "--budget", "100000"], capture_output=True, text=True).stdout)
    mark(is_wrong(question, answers), question.query)
    runs = [[PROGRAM, "analyse", *files(question), "--budget", "100000"], [*SOLVER_WORDS, write("q.smt2", question.smt)]]
    return [None if count is None else count - start for count, start in zip(map(instructions, runs), starts)]


def beyond_on_average(size, starts, draws=12):
    """The same over some questions of random clauses, since one takes far more than another of its size."""
    counts = [beyond(random_clauses(size, 5000 + 1000 * draw), starts) for draw in range(draws)]
    return [None if None in those else sum(those) / draws for those in zip(*counts)]


def growth():
    """A row a size: millions of instructions beyond the start, which is that of a run on nothing, and how many times those of the size before, of both."""
    starts = [instructions([PROGRAM, "--help"]), instructions([*SOLVER_WORDS, write("q.smt2", script())])]
    print("| Family | Size | Millions of instructions | Those of cvc5 | Times the size before | Those of cvc5 |\n|---|---|---|---|---|---|", flush=True)
    for family, sizes in GROWTH:
        before = (None, None)
        for size in sizes:
            counts = beyond_on_average(size, starts) if family is random_clauses else beyond(family(size), starts)
            mark(counts[0] is None, f"{family.__name__} {size}")
            times = ["" if count is None or not last else f"{count / last:.2f}" for count, last in zip(counts, before)]
            millions = ["" if count is None else f"{count:.2f}" for count in counts]
            print(f"| {family.__name__} | {size} | {millions[0]} | {millions[1]} | {times[0]} | {times[1]} |", flush=True)
            before = counts


def main():
    print("| Family | Size | Answers | Units | Seconds | Seconds of cvc5 |\n|---|---|---|---|---|---|", flush=True)
    for family, sizes in FAMILIES:
        for size in sizes:
            measure(family, size)
    if SETS:
        for name in sorted(os.listdir(SETS)):
            if os.path.isfile(f"{SETS}/{name}/answers.txt"):
                measure_set(name)


if SETS == "growth":
    growth()
else:
    main()
if WRONG:
    print(f"not right, or not there: {', '.join(WRONG)}", file=sys.stderr)
sys.exit(1 if WRONG else 0)
