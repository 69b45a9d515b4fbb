"""The commands and their options."""

from __future__ import annotations

import argparse
import io
import os
import sys
from typing import Callable, Optional, Sequence

import vutselqi
from vutselqi.compare import DIFFERENT, NARROWER, WIDER, Comparison
from vutselqi.explain import Explanation
from vutselqi.fleet import Fleet
from vutselqi.inputs import Input, Workspace
from vutselqi.lint import Lint
from vutselqi.notations import policies_in_cedar, schema_in_json
from vutselqi.outputs import github, objects, page, sarif
from vutselqi.outputs.text import TextForm
from vutselqi.pictures import NO_DOT, can_draw, svg_of
from vutselqi.program import Program, find
from vutselqi.progress import Progress
from vutselqi.questions import Asker
from vutselqi.report import Report, of_trouble
from vutselqi.trouble import Trouble

FORMS: dict[str, Callable[[Report], str]] = {"json": objects.text_of, "sarif": sarif.text_of, "github": github.text_of}
MOST_BUDGET = 1_000_000_000
INTERRUPTED = 130  # as shells tell it


def whole(least: int, most: int) -> Callable[[str], int]:
    """A reader of whole numbers within bounds."""

    def number(text: str) -> int:
        value = int(text)
        if not least <= value <= most:
            raise argparse.ArgumentTypeError(f"from {least} to {most}")
        return value

    return number


def parser() -> argparse.ArgumentParser:
    """The reader of the command line."""
    top = argparse.ArgumentParser(
        prog="vutselqi", description="What changes of Cedar policies do, in words, from the answers of cedar_symcc."
    )
    top.add_argument("--version", action="version", version=f"vutselqi {vutselqi.__version__}")
    commands = top.add_subparsers(dest="command", required=True, metavar="COMMAND")
    compare = commands.add_parser("compare", help="what a change does to each kind of request")
    with_questions(with_files(compare))
    compare.add_argument("old", metavar="OLD", help="the policies before the change")
    compare.add_argument("new", metavar="NEW", help="the policies after it")
    compare.add_argument(
        "--fail-on", choices=[DIFFERENT, WIDER, NARROWER], default=DIFFERENT, help="the difference that gives status 1"
    )
    lint = commands.add_parser(
        "lint", help="rules that can err or do nothing, and kinds of request that are always decided the same"
    )
    with_questions(with_files(lint))
    lint.add_argument("policies", metavar="POLICIES", help="the policies")
    explain = commands.add_parser("explain", help="a world in words and as a picture")
    with_files(explain).add_argument("--policies", required=True, metavar="FILE", help="the policies")
    explain.add_argument("--picture", metavar="FILE", help="write the world as an SVG picture")
    explain.add_argument("world", metavar="WORLD", help="a world, or a line of cedar_symcc with one in it")
    return top


def with_files(command: argparse.ArgumentParser) -> argparse.ArgumentParser:
    """Adds the options that all commands have."""
    command.add_argument("--schema", required=True, metavar="FILE", help="the schema")
    command.add_argument("--program", metavar="FILE", help="the proved program, cedar_symcc")
    forms = command.add_mutually_exclusive_group()
    for form, text in (("json", "JSON"), ("sarif", "SARIF 2.1.0"), ("github", "annotations for GitHub")):
        forms.add_argument(f"--{form}", dest="form", action="store_const", const=form, help=f"write {text}")
    command.add_argument("--html", metavar="FILE", help="write a page as well")
    command.add_argument("--raw", action="store_true", help="show the lines of the program below each sentence")
    command.add_argument(
        "--color", choices=["auto", "always", "never"], default="auto", help="colours: auto is on a terminal"
    )
    return command


def with_questions(command: argparse.ArgumentParser) -> None:
    """Adds the options of commands that ask questions of all kinds of request."""
    budget = whole(1, MOST_BUDGET)
    command.add_argument(
        "--budget",
        type=budget,
        default=100_000,
        metavar="N",
        help="the most units of work for a kind of request (100000)",
    )
    command.add_argument(
        "--jobs", type=whole(1, 4096), default=1, metavar="N", help="how many processes share the work (1)"
    )
    command.add_argument("--hosts", metavar="FILE", help="share the work among these hosts, by GNU parallel")


def report_of(given: argparse.Namespace, workspace: Workspace) -> Report:
    """Does what the command says."""
    program = Program(find(given.program))
    schema = schema_in_json(workspace, workspace.take(given.schema, "schema.json"))
    if given.command == "explain":
        policies = policies_of(workspace, given.policies, "policies.cedar")
        return Explanation(
            program, workspace, schema, policies, workspace.take_world(given.world, "world.json")
        ).report()
    fleet = Fleet(program, given.hosts, given.jobs) if given.hosts else None
    progress = Progress(sys.stderr, sys.stderr.isatty())
    asker = Asker(program, workspace, schema, given.budget, given.jobs, progress, fleet)
    if given.command == "lint":
        return Lint(asker, policies_of(workspace, given.policies, "policies.cedar")).report()
    old, new = policies_of(workspace, given.old, "old.cedar"), policies_of(workspace, given.new, "new.cedar")
    return Comparison(asker, old, new, given.fail_on).report()


def policies_of(workspace: Workspace, given: str, name: str) -> Input:
    """A file of policies in Cedar's notation."""
    return policies_in_cedar(workspace, workspace.take(given, name))


def write(report: Report, given: argparse.Namespace) -> None:
    """Writes the report: files first, then what goes to standard output; trouble in words goes to standard error."""
    if given.html:
        save(given.html, page.text_of(report))
    if getattr(given, "picture", None) and not report.trouble:
        save(given.picture, picture_of(report))
    if given.form:
        sys.stdout.write(FORMS[given.form](report))
    else:
        out = sys.stderr if report.trouble else sys.stdout
        is_terminal = out.isatty()
        is_coloured = given.color == "always" or (
            given.color == "auto" and is_terminal and not os.environ.get("NO_COLOR")
        )
        TextForm(out, is_coloured, given.raw, is_terminal).write(report)
    sys.stdout.flush()


def picture_of(report: Report) -> str:
    """The picture of the report's world, as a file of its own."""
    world = next(finding.world for finding in report.findings if finding.world)
    picture = svg_of(world, True)
    if picture is None:
        raise Trouble(
            NO_DOT if not can_draw() else "`dot` doesn't draw this world",
            advice="install Graphviz, or leave --picture out",
        )
    return picture


def save(name: str, text: str) -> None:
    """Writes a file."""
    try:
        with open(name, "w", encoding="utf-8", errors="replace") as file:
            file.write(text)
    except (OSError, ValueError) as error:
        reason = getattr(error, "strerror", None) or str(error)
        raise Trouble(f"{name} couldn't be written: {reason}", advice="check the folder and its rights") from error


def main(words: Optional[Sequence[str]] = None) -> int:
    """Runs a command, and returns its status."""
    given = parser().parse_args(words)
    for stream in (sys.stdout, sys.stderr):
        if isinstance(stream, io.TextIOWrapper):
            stream.reconfigure(errors="backslashreplace")
    try:
        with Workspace() as workspace:
            report = report_of(given, workspace)
    except Trouble as trouble:
        report = of_trouble(given.command, trouble)
    except KeyboardInterrupt:
        return INTERRUPTED
    try:
        write(report, given)
    except Trouble as trouble:
        report = of_trouble(given.command, trouble)
        TextForm(sys.stderr, False, given.raw, sys.stderr.isatty()).write(report)
    except BrokenPipeError:
        os.dup2(os.open(os.devnull, os.O_WRONLY), sys.stdout.fileno())
        return 2
    return report.status
