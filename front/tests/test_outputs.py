"""Forms of output where what a user gives is hostile: nothing acts on a terminal, a page, a log or a picture."""

from __future__ import annotations

import json
import re
import shutil
import subprocess
import unittest
from html.parser import HTMLParser
from xml.etree import ElementTree

from tests.support import FrontTest, needs_program, write_blocks
from vutselqi.outputs.github import annotation
from vutselqi.pictures import svg_of
from vutselqi.places import Place
from vutselqi.worlds import read_world

HOSTILE = "</svg><script>alert(1)</script>\"' & &lt; \\N \\l \x1b[31m\u202e %0A\r::error::"
NAME = 'a "new"\nset; $(touch ran) <b>&.cedar'
needs_dot = unittest.skipUnless(shutil.which("dot"), "Graphviz's `dot` isn't installed")


class Page(HTMLParser):
    """What a page has: its elements, what leads out of it, and its text."""

    def __init__(self, text: str) -> None:
        super().__init__()
        self.elements: list[str] = []
        self.outside: list[str] = []
        self.text = ""
        self.feed(text)

    def handle_starttag(self, tag: str, attrs: list) -> None:
        self.elements.append(tag)
        for name, value in attrs:
            if name.startswith("on") or (
                name in ("href", "src", "action", "data", "xlink:href") and not (value or "").startswith("#")
            ):
                self.outside.append(f"{tag} {name}={value}")

    def handle_data(self, data: str) -> None:
        self.text += data


def schema_of(name: str) -> str:
    """A schema with one attribute of a name."""
    shape = {"type": "Record", "attributes": {name: {"type": "String"}}}
    view = {
        "appliesTo": {
            "principalTypes": ["User"],
            "resourceTypes": ["Doc"],
            "context": {"type": "Record", "attributes": {}},
        }
    }
    return json.dumps({"": {"entityTypes": {"User": {"shape": shape}, "Doc": {}}, "actions": {HOSTILE: view}}})


def cedar(text: str) -> str:
    """A text as a string of Cedar."""
    return '"' + "".join(c if c.isalnum() else f"\\u{{{ord(c):x}}}" for c in text) + '"'


@needs_program
class Hostile(FrontTest):
    """Policies, schemas and names of files that try to be more than data."""

    def setUp(self) -> None:
        super().setUp()
        self.file("schema.json", schema_of(HOSTILE))
        self.file("old.cedar", "forbid(principal, action, resource);\n")
        rule = f"@id({cedar(HOSTILE)})\npermit(principal == User::{cedar(HOSTILE)}, action, resource)"
        self.file(
            NAME, f"{rule} when {{ principal[{cedar(HOSTILE)}] == {cedar(HOSTILE)} }}; // {HOSTILE.splitlines()[0]}\n"
        )

    def compare(self, *words: str) -> str:
        """What `compare` writes."""
        run = self.vutselqi("compare", "--schema", "schema.json", *words, "old.cedar", NAME)
        self.assertEqual((run.status, run.err), (1, ""))
        self.assertFalse((self.folder / "ran").exists())
        return run.out

    def test_text(self) -> None:
        for words in ((), ("--color", "always")):
            shown = re.sub(r"\x1b\[\d+m(.*?)\x1b\[0m", r"\1", self.compare(*words))
            self.assertTrue(all(line.isprintable() for line in shown.split("\n")), shown)
            self.assertIn('a "new"\\u{a}set; $(touch ran) <b>&.cedar:2:1', shown)

    def test_github(self) -> None:
        out = self.compare("--github")
        first, second, rest = out.split("\n")
        self.assertTrue(
            first.startswith('::error file=a "new"\\u{a}set; $(touch ran) <b>&.cedar,line=2,col=1,title='), first
        )
        self.assertTrue(out.replace("\n", "").isprintable())
        self.assertEqual((second, rest), ("1 kind of request: 1 wider.", ""))
        self.assertIn("%250A", first)
        told = annotation("note", "a,b:c%\r\n", "x\r\ny%", Place("f:1,2", 3, 4))
        self.assertEqual(told, "::notice file=f%3A1%2C2,line=3,col=4,title=a%2Cb%3Ac%25\\u{d}\\u{a}::x\\u{d}%0Ay%25")

    def test_json_and_sarif(self) -> None:
        for form in ("--json", "--sarif"):
            out = self.compare(form)
            self.assertTrue(out.replace("\n", "").isprintable() and out.isascii())
        result = json.loads(out)["runs"][0]["results"][0]
        place = result["locations"][0]["physicalLocation"]
        self.assertEqual(
            place["artifactLocation"]["uri"], "a%20%22new%22%5Cu%7Ba%7Dset%3B%20%24%28touch%20ran%29%20%3Cb%3E%26.cedar"
        )
        self.assertEqual(place["region"], {"startLine": 2, "startColumn": 1})

    def test_page(self) -> None:
        self.compare("--html", "page.html")
        text = (self.folder / "page.html").read_text(encoding="utf-8")
        page = Page(text)
        self.assertNotIn("script", page.elements)
        self.assertEqual(page.outside, [])
        self.assertNotIn("url(", text)
        self.assertTrue(text.replace("\n", "").isprintable())
        self.assertIn("</svg><script>alert(1)</script>", page.text)
        self.assertEqual("svg" in page.elements, shutil.which("dot") is not None)

    def test_raw(self) -> None:
        out = self.compare("--raw")
        name = "$'a \"new\"\\x0aset; $(touch ran) <b>&.cedar'"
        self.assertIn(f"    | $ cedar_symcc analyse --schema schema.json --policies {name} --against old.cedar", out)
        run = subprocess.run(["bash", "-c", f"printf %s {name}"], capture_output=True, text=True, check=True)
        self.assertEqual(run.stdout, NAME)

    def test_names_of_files(self) -> None:
        for name in ("-x.cedar", "--help", "ü \\ '.cedar", "\udcff.cedar", "\x1b[31m.cedar"):
            (self.folder / name).write_bytes((self.folder / "old.cedar").read_bytes())
            run = self.vutselqi("compare", "--schema", "schema.json", "--raw", "--", name, "old.cedar")
            self.assertEqual((run.status, run.err), (0, ""), name)


class Pictures(FrontTest):
    """Pictures of worlds."""

    @needs_dot
    def test_hostile_labels(self) -> None:
        label = "</svg><script>\"' & &lt; \\N \\l\x1b\n"
        user, doc, view = ({"type": type, "id": id} for type, id in (("User", label), ("Doc", "0"), ("Action", label)))
        attributes = {label: label, "to": {"__entity": user}}
        stored = [{"uid": uid, "attrs": attributes, "parents": [], "tags": {label: label}} for uid in (user, doc)]
        request = {"principal": user, "action": view, "resource": doc, "context": {label: label}}
        picture = svg_of(read_world(json.dumps({"entities": stored, "request": request})), True) or ""
        tree = ElementTree.fromstring(picture)
        words = "".join(tree.itertext())
        self.assertIn("\n</svg><script>\"' & &lt; \\N \\l\\u{1b}\\u{a}\n", words)
        self.assertNotIn("script", {element.tag.rpartition("}")[2] for element in tree.iter()})
        self.assertNotIn("<!DOCTYPE", picture)

    @needs_program
    def test_without_dot(self) -> None:
        write_blocks(self.folder)
        nowhere = {"PATH": "/nowhere"}
        run = self.vutselqi(
            "compare", "--schema", "schema.json", "--html", "page.html", "old.cedar", "new.cedar", **nowhere
        )
        self.assertEqual((run.status, run.err), (1, ""))
        page = Page((self.folder / "page.html").read_text(encoding="utf-8"))
        self.assertNotIn("svg", page.elements)
        self.assertIn("Graphviz's `dot` isn't installed: there are no pictures.", page.text)
        words = ("explain", "--schema", "schema.json", "--policies", "old.cedar", "--picture", "w.svg", "world.json")
        run = self.vutselqi(*words, **nowhere)
        self.assertEqual((run.status, run.out), (2, ""))
        self.assertIn("Graphviz's `dot` isn't installed", run.err)

    @needs_dot
    @needs_program
    def test_picture(self) -> None:
        write_blocks(self.folder)
        run = self.vutselqi(
            "explain", "--schema", "schema.json", "--policies", "old.cedar", "--picture", "w.svg", "world.json"
        )
        self.assertEqual((run.status, run.err), (0, ""))
        words = "".join(ElementTree.parse(self.folder / "w.svg").getroot().itertext())
        for word in ("User 0", "Doc 0", "view", "mfa true"):
            self.assertIn(word, words)
