"""Parts that need no program: lines, places, rules, pointers, words, escapes."""

from __future__ import annotations

import unittest

from vutselqi import faults, lines, places, pointers
from vutselqi.escapes import plain, unescaped
from vutselqi.questions import budgets_up_to
from vutselqi.rules import rules_of
from vutselqi.words import Words, listed
from vutselqi.worlds import read_world

WORLD = (
    '{"entities":[{"attrs":'
    '{"boss":{"__entity":{"id":"b","type":"N::User"}},"rate":{"__extn":{"arg":"1.5","fn":"decimal"}}},'
    '"parents":[{"id":"staff","type":"N::Group"}],"tags":{"k":"v"},"uid":{"id":"a","type":"N::User"}},'
    '{"attrs":{"on":true},"parents":[],"tags":{},"uid":{"id":"b","type":"N::User"}}],'
    '"link":{"?principal":{"id":"a","type":"N::User"}},'
    '"request":{"action":{"id":"see all","type":"N::Action"},"context":{},"principal":{"id":"a","type":"N::User"},'
    '"resource":{"id":"","type":"N::Doc"}}}'
)


class Lines(unittest.TestCase):
    """The forms of lines."""

    def test_verdicts(self) -> None:
        for text, says in (
            ('env User Action::"view" Doc: holds', "holds"),
            ('env A::B A::Action::"a\\"b: \\\\" C: over limit', "over limit"),
            ('env User Action::"view" Doc link ?principal User ?resource Doc: unknown after 10 units', "unknown"),
            ('env User Action::"view" Doc: counterexample {"entities":[]}', "counterexample"),
        ):
            self.assertEqual(lines.read_verdict(text).says, says)
        self.assertEqual(
            lines.read_verdict('env U Action::"v" D link ?principal U: holds').kind.text,
            'U Action::"v" D link ?principal U',
        )
        self.assertEqual(lines.read_verdict('env U Action::"a\\"\\u{1}" D: holds').kind.action_id, 'a"\x01')

    def test_other_lines(self) -> None:
        for text in (
            "",
            "env User",
            'env User Action::"view" Doc: perhaps',
            'env User Action::"view" Doc: holds ',
            "policy1 dropped",
        ):
            with self.assertRaises(lines.Unread):
                lines.read_verdict(text)

    def test_fates(self) -> None:
        front = 'env User Action::"view" Doc link ?resource Doc'
        for text, says in (
            ("policy0 dropped", "dropped"),
            (f"policy1 kept {front} {{}}", "kept"),
            (f"policy22 unproved {front} after 7 units", "unproved"),
            (f"policy3 over limit {front}", "over limit"),
        ):
            self.assertEqual(lines.read_fate(text).says, says)

    def test_replay(self) -> None:
        replay = lines.read_replay(
            ['world not well-formed: missing A::"b"', "policy0 satisfied", "policy1 errs Overflow", "decision Deny"]
        )
        self.assertEqual((replay.fault, replay.decision), ('missing A::"b"', "Deny"))
        self.assertEqual([(s.says, s.error) for s in replay.standings], [("satisfied", ""), ("errs", "Overflow")])


class Places(unittest.TestCase):
    """Lines, columns and carets."""

    def test_bytes(self) -> None:
        place = places.at_byte("f", "é\r\nab\tc\n".encode(), 6)
        self.assertEqual((place.line, place.column, place.excerpt), (2, 3, ("ab    c", "  ^")))

    def test_the_end(self) -> None:
        self.assertEqual(places.at_byte("f", b"a\n", 2).text, "f:2:1")
        self.assertEqual(places.at_byte("f", b"", 0).excerpt, ("", "^"))

    def test_wide_and_hidden_characters(self) -> None:
        self.assertEqual(places.at_character("f", "漢\u202ex", 2).excerpt, ("漢\\u{202e}x", " " * 10 + "^"))

    def test_long_lines(self) -> None:
        shown, caret = places.at_character("f", "a" * 500 + "b" + "c" * 500, 500).excerpt
        self.assertEqual(shown[len(caret) - 1], "b")
        self.assertLess(len(shown), 110)

    def test_pointers(self) -> None:
        text = '{"": {"a/b": [1, {"c": 2}]}, "d": {}}'
        self.assertEqual(pointers.offset_of(text, "//a~1b/1/c"), text.index('"c"'))
        self.assertEqual(pointers.offset_of(text, ""), 0)
        self.assertEqual(pointers.offset_of(text, "/d"), text.index('"d"'))
        for wrong in ("/e", "/d/x", "//a~1b/7", "//a~1b/0/c"):
            self.assertIsNone(pointers.offset_of(text, wrong))


class Rules(unittest.TestCase):
    """Where rules are."""

    def test_rules(self) -> None:
        text = (
            '// permit;\n@id("one \\"1\\"")\n@note("forbid;")\n'
            'permit(principal, action, resource) when { "a;b" == "c" };\n'
            "\r\n@permit\n@id\nforbid(principal, action, resource) // ;\n;permit(principal,action,resource);"
        )
        found = [(rule.number, rule.effect, rule.identity, rule.place("f", text).line) for rule in rules_of(text)]
        self.assertEqual(found, [(1, "permit", 'one "1"', 4), (2, "forbid", None, 8), (3, "permit", None, 9)])
        self.assertIn("a;b", rules_of(text)[0].words)
        self.assertNotIn("note", rules_of(text)[0].words)

    def test_text(self) -> None:
        text = "permit(principal, action, resource)\nwhen { true };\n"
        self.assertEqual(
            rules_of(text)[0].place("f", text).excerpt, ("permit(principal, action, resource)", "when { true };")
        )


class Texts(unittest.TestCase):
    """Words and escapes."""

    def test_sentence(self) -> None:
        words = Words(read_world(WORLD))
        self.assertEqual(
            words.request("may"),
            'User a, who is in Group staff, with boss User b and rate 1.5, tagged k "v", may "see all" Doc "", '
            "where ?principal stands for User a",
        )
        self.assertEqual(words.besides(), ["User b: on true"])
        self.assertIn("staff, with rate 1.5, tagged", Words(read_world(WORLD), {"rate"}).request("may"))
        self.assertEqual(Words(read_world(WORLD), set(), {"boss"}).besides(), ["User a, besides: boss User b"])

    def test_lists(self) -> None:
        self.assertEqual([listed("a"), listed("ab"), listed("abc")], ["a", "a and b", "a, b and c"])

    def test_escapes(self) -> None:
        self.assertEqual(plain("a\x1b[31m\n\u202e\x85é"), "a\\u{1b}[31m\\u{a}\\u{202e}\\u{85}é")
        self.assertEqual(unescaped('\\u{41}\\x42\\n\\"\\q\\u{ffffff}'), 'AB\n"\\q\\u{ffffff}')

    def test_budgets(self) -> None:
        self.assertEqual(budgets_up_to(100), [100])
        self.assertEqual(budgets_up_to(10_000), [10_000])
        self.assertEqual(budgets_up_to(2_000_000), [10_000, 100_000, 1_000_000, 2_000_000])

    def test_meanings(self) -> None:
        meanings = faults.meanings()
        for status, name in (
            (11, "Unexpected"),
            (11, "TooDeep"),
            (12, "NotJson"),
            (13, "NotBoolean"),
            (14, "Malformed"),
            (17, "BadWorld"),
        ):
            self.assertTrue(all(faults.meaning_of(status, name)), name)
        meaning, _ = faults.meaning_of(13, "NotBoolean")
        self.assertEqual(meaning, "a condition, or an operand of `&&`, `||`, `!`, `if`, isn't Boolean")
        for status in (20, 21, 22, 30):
            self.assertTrue(meanings[status, ""][0])
