"""Pure parts of the words: moments that are joined, names in order, lines that are cut, labels of metrics, the pictures' texts."""
import contextlib
import io
import os
import re
import tempfile
import types
import unittest
from unittest import mock

import tools
from metad_host import asking, completion, forecast, graph, metrics, printing, store, words
from metad_host.numbers import DAY


class Forecast(unittest.TestCase):
    def test_few_moments_stay(self):
        self.assertEqual(forecast.joined([1, 2, 3], 3), [(1, 1), (2, 1), (3, 1)])
        self.assertEqual(forecast.joined(list(range(200)), 0), [(moment, 1) for moment in range(200)])
        self.assertEqual(forecast.joined([], 5), [])

    def test_later_moments_are_joined_by_day(self):
        moments = [1, 2, 3, DAY + 1, DAY + 5, 2 * DAY]
        self.assertEqual(forecast.joined(moments, 5), [(1, 1), (2, 1), (3, 1), (DAY + 5, 2), (2 * DAY, 1)])
        self.assertEqual(forecast.joined(moments, 3), [(3, 3), (DAY + 5, 2), (2 * DAY, 1)])

    def test_more_days_than_lines(self):
        moments = [day * DAY for day in range(10)]
        self.assertEqual(forecast.joined(moments, 3), [(0, 1), (DAY, 1), (9 * DAY, 8)])
        self.assertEqual(forecast.joined(moments, 1), [(9 * DAY, 10)])

    def test_each_end_is_counted_once(self):
        moments = sorted(day * DAY // 3 + day for day in range(40))
        for limit in range(1, 45):
            found = forecast.joined(moments, limit)
            self.assertLessEqual(len(found), limit)
            self.assertEqual(sum(count for _, count in found), 40)
            self.assertEqual(found, sorted(found))


class Texts(unittest.TestCase):
    def test_names_with_a_tag_come_first(self):
        names = ["sha256:1", "docker.io/library/a@sha256:1", "docker.io/library/a:3"]
        self.assertEqual(sorted(names, key=store.name_order), names[::-1])

    def test_lines_are_cut_to_the_terminal(self):
        printer = printing.Printer.__new__(printing.Printer)
        printer.width = None
        self.assertEqual(printer.cut("x" * 300), "x" * 300)
        printer.width = 10
        self.assertEqual(printer.cut("x" * 10), "x" * 10)
        self.assertEqual(printer.cut("x" * 11), "x" * 7 + "...")
        printer.width = 40
        lines = ["  1.0 kB  moby/registry.example/a/very/long/name:v%d" % number for number in (1, 2)]
        self.assertEqual([len(printer.cut(line)) for line in lines], [40, 40])
        self.assertTrue(printer.cut(lines[0]).startswith("  1.0 kB  moby/registry"))
        self.assertTrue(printer.cut(lines[1]).endswith("name:v2"))
        self.assertEqual(printer.cut(printing.Whole("x" * 11)), "x" * 11)

    def test_sizes(self):
        printer = printing.Printer.__new__(printing.Printer)
        printer.raw = False
        self.assertEqual([printer.size(size) for size in (None, 0, 999, 1000, 5700000000)], ["unknown", "0 B", "999 B", "1.0 kB", "5.7 GB"])
        printer.raw = True
        self.assertEqual(printer.size(5700000000), "5700000000")

    def test_limits(self):
        self.assertEqual((printing.first([1, 2, 3], 2), printing.first([1, 2, 3], 0)), ([1, 2], [1, 2, 3]))
        self.assertEqual((printing.and_more(3, 3), printing.and_more(3, 0), len(printing.and_more(4, 3))), ([], [], 1))

    def test_metrics(self):
        metric = metrics.Metric("m", "What it is.", [({"a": 'x"\\\n'}, 1), ({}, 0.5)])
        self.assertEqual(list(metrics.text(metric)), ["# HELP m What it is.", "# TYPE m gauge", 'm{a="x\\"\\\\\\n"} 1', "m 0.5"])

    def test_pictures(self):
        self.assertEqual(graph.quoted('a"b\\\n'), '"a\\"b\\\\\\n"')
        self.assertEqual(graph.shorter("x" * 32), "x" * 32)
        self.assertEqual(len(graph.shorter("sha256:" + "1" * 64)), 32)

    def test_requests(self):
        self.assertEqual(asking.request("image.remove", ns="x", name="é"), '{"op": "image.remove", "ns": "x", "name": "é"}'.encode())


METAD = """#!/bin/sh
while IFS= read -r line; do
  case $line in
    *more*) echo '{"ok":true,"more":1}' ;;
    *bad*) echo '{"fault":2,"ok":false}' ;;
    *end*) exit ;;
    *) echo '{"ok":true}' ;;
  esac
done
"""


class Asked(unittest.TestCase):
    """Lines that are answered in parts of many, by what stands for metad."""

    def setUp(self):
        self.folder = tempfile.TemporaryDirectory()
        self.addCleanup(self.folder.cleanup)
        self.path = os.path.join(self.folder.name, "metad")
        with open(self.path, "w", encoding="utf-8") as file:
            file.write(METAD)
        os.chmod(self.path, 0o755)
        many = mock.patch.object(asking, "MANY", 10)
        many.start()
        self.addCleanup(many.stop)

    def load(self, lines, then=True):
        with asking.Metad(self.path) as metad:
            metad.load([line.encode() for line in lines])
            return metad.ask("more") if then else None

    def test_each_part_is_answered_to_its_end(self):
        for lines in ([], ["a"], ["a"] * 10, ["a"] * 25, ["more"] * 25, ["a"] * 5 + ["more"] * 3 + ["a"] * 17):
            self.assertEqual(self.load(lines), {"ok": True, "more": 1}, lines)

    def test_a_refusal_is_told_with_its_line(self):
        for place in (0, 9, 10, 24):
            lines = ["a%d" % number for number in range(25)]
            lines[place] = "bad %d" % place
            with self.assertRaisesRegex(Exception, 'metad answered .*"fault":2.* to bad %d$' % place):
                self.load(lines)

    def test_an_end_is_told_with_its_place(self):
        for place in (0, 9, 10, 24):
            lines = ["a"] * 25
            lines[place] = "end"
            with self.assertRaisesRegex(Exception, "ended before its reply to request %d of 25" % (place + 1)):
                self.load(lines)


class Measured(unittest.TestCase):
    def test_a_file_of_many_names_counts_once(self):
        from metad_host import disk
        with tempfile.TemporaryDirectory() as folder:
            self.assertIsNone(disk.bytes_below(os.path.join(folder, "none")))
            self.assertEqual(disk.bytes_below(folder), 0)
            os.mkdir(os.path.join(folder, "fs"))
            path = os.path.join(folder, "fs", "file")
            with open(path, "wb") as file:
                file.write(b"x" * 100000)
            once = disk.bytes_below(folder)
            self.assertGreaterEqual(once, 100000)
            os.link(path, os.path.join(folder, "again"))
            os.symlink("/", os.path.join(folder, "link"))
            self.assertLess(disk.bytes_below(folder), once + 50000)


class Words(unittest.TestCase):
    def test_each_word_is_a_module_and_has_help(self):
        parser = words.parser("metad-host")
        for word, about in words.WORDS.items():
            operands = [{"SHELL": "bash", "SIZE": "1GB"}.get(operand, "o") for operand in about.operands if operand[0] != "["]
            self.assertEqual(parser.parse_args([word] + operands).word, word)
            self.assertTrue(set(about.options) <= set(words.OPTIONS), word)

    def test_what_is_roots_alone_is_told(self):
        for user, ends in ((1000, "Permission denied: it needs root's rights (sudo), as a daemon's files do\n"), (0, "Permission denied\n")):
            told = io.StringIO()
            with mock.patch.object(words, "run", side_effect=PermissionError(13, "Permission denied", "/var/lib/containerd")), \
                    mock.patch.object(os, "geteuid", return_value=user), contextlib.redirect_stderr(told):
                self.assertEqual(words.main(["usage", "/var/lib/containerd"], "metad-host"), 1)
            self.assertEqual(told.getvalue(), "metad-host: /var/lib/containerd: " + ends)

    def test_numbers_and_moments(self):
        import argparse
        self.assertEqual(words.count("20"), 20)
        for bad in ("-1", "x", "", "1.5", "²", "9" * 12):
            with self.assertRaises(argparse.ArgumentTypeError):
                words.count(bad)
        with self.assertRaises(argparse.ArgumentTypeError):
            words.moment("monday")

    def test_completion_names_each_word_and_option(self):
        text = completion.zsh("metad-host", "metad_host")
        for word, about in words.WORDS.items():
            self.assertIn("'%s:" % word, text)
            for option in about.options:
                self.assertIn("'%s[" % option, text)

    def test_the_manual_tells_each_word_and_option(self):
        with open(os.path.join(tools.TOP, "docs", "metad-host.1"), encoding="utf-8") as file:
            text = file.read().replace("\\-", "-").replace("\\(aq", "'").lower()
        for word, about in words.WORDS.items():
            entry = re.search(r"^\\fb%s\\fr.*\n(.*\.)\n(.*)" % word, text, re.MULTILINE)
            self.assertTrue(entry and entry[1] == about.answers.lower() + ".", word)
            self.assertEqual(re.findall(r"--[a-z-]+", entry[2] if about.options else ""), list(about.options), word)
        for option, about in words.OPTIONS.items():
            self.assertIn("\\fb%s\\fr" % option, text)
            self.assertIn(about["help"].lower() + ".", text)
        for operand, about in words.OPERANDS.items():
            self.assertIn(about.lower() + ".", text, operand)

    def test_ambiguity(self):
        from metad_host import why
        names = types.SimpleNamespace(text=lambda key: key[2])
        one = why.Found([("content", "x", "a"), ("images", "y", "a")], [])
        two = why.Found([("content", "x", "a"), ("content", "x", "ab")], [])
        self.assertEqual((why.is_ambiguous(names, one), why.is_ambiguous(names, two)), (False, True))
