"""Which version's rules count, and what a program, a process's words and a config.toml tell."""
import json
import os
import subprocess
import tempfile
import unittest

import tools

assert tools.TOP  # tools finds the modules of the tool
from metad_host import daemon, versions
from metad_host.faults import BadInput
from metad_host.versions import NAMED, RUNNING, chosen


class Versions(unittest.TestCase):
    def test_lines(self):
        for text, line in (("2.1.9", "2.1"), ("v2.1.0-rc.0", "2.1"), ("1.7.24~ds1", "1.7"),
                           ("2.1", "2.1"), ("1.6.20+unknown", "1.6"), ("2", None), ("x", None)):
            self.assertEqual(versions.line_of(text), line, text)

    def test_a_line_without_rules_has_those_of_the_one_before(self):
        for text, line in (("1.2.3", "1.6"), ("1.8.0", "1.7"), ("2.9", "2.2"), ("10.0", "2.2")):
            self.assertEqual(versions.rules_of(text).line, line)
            self.assertFalse(chosen(4, text, NAMED).is_sure(), text)

    def test_who_is_sure(self):
        for schema, told, line, sure in (
                (4, ("2.1.9", RUNNING), "2.1", True), (4, ("2.1.0", NAMED), "2.1", True),
                (4, ("1.7.24", RUNNING), "1.7", True), (4, ("2.0.5", RUNNING), "2.0", False),
                (4, ("2.2.0", NAMED), "2.2", False), (4, ("", ""), "2.1", False),
                (3, ("", ""), "1.7", False), (3, ("1.6.20", RUNNING), "1.6", True)):
            found = chosen(schema, *told)
            self.assertEqual((found.rules.line, found.is_sure()), (line, sure), told)

    def test_what_a_version_reads(self):
        by_line = {rules.line: rules for rules in versions.TABLE}
        self.assertFalse(by_line["1.7"].images_expire or by_line["2.1"].back_references)
        self.assertTrue(by_line["2.1"].image_references and by_line["2.2"].back_references)
        self.assertEqual([line for line, rules in by_line.items() if not rules.pinned], ["1.6"])

    def test_what_a_program_prints(self):
        for text, found in (
                ("containerd github.com/containerd/containerd 1.6.20~ds1 1.6.20~ds1-1\n", "1.6.20~ds1"),
                ("containerd github.com/containerd/containerd/v2 2.1.9+unknown \n", "2.1.9+unknown"),
                ("k3s version v1.28.2 (x)", ""), ("", ""), ("ld.so (Debian GLIBC) 2.41", "")):
            self.assertEqual(versions.reported(text), found)


class Daemon(unittest.TestCase):
    def test_the_socket_of_a_config(self):
        text = 'version = 2\nstate = "/run/c"\n[debug]\n  address = "no"\n[grpc]\n  address = "/s"\n'
        self.assertEqual(daemon.settings(text), ("/s", "/run/c", ""))
        text = "[plugins.'io.containerd.grpc.v1.cri']\nstate = 'no'\nsandbox_image = 'p:3' # x\n"
        self.assertEqual(daemon.settings(text), ("", "", "p:3"))

    def test_options_of_a_process(self):
        words = ["containerd", "-c", "/c", "--address=/s", "--state"]
        self.assertEqual(daemon.option(words, ("-c", "--config")), "/c")
        self.assertEqual(daemon.option(words, ("-a", "--address")), "/s")
        self.assertEqual(daemon.option(words, ("--state",)), "")

    def test_a_program_that_is_no_containerd(self):
        self.assertEqual(daemon.version_of(os.getpid()), "")

    def test_who_has_a_file_open(self):
        with tempfile.TemporaryDirectory() as folder:
            path = os.path.join(folder, "meta.db")
            with open(path, "wb"):
                self.assertEqual(daemon.holders(path), [], "this process counts itself")
            self.assertEqual((daemon.holders(path), daemon.running(path)), ([], daemon.NONE))
            reader = subprocess.Popen(["sh", "-c", "echo; read x"], stdin=subprocess.PIPE, stdout=subprocess.PIPE, cwd=folder,
                                      preexec_fn=lambda: os.dup2(os.open(path, os.O_RDONLY), 9), close_fds=False, pass_fds=())
            try:
                reader.stdout.readline()
                self.assertEqual(daemon.holders(path), [reader.pid])
                self.assertEqual(daemon.running(path).version, "", "a shell is no containerd")
            finally:
                reader.communicate(b"\n")

    def test_a_record_beside_a_copy(self):
        with tempfile.TemporaryDirectory() as folder:
            copy = os.path.join(folder, "host.db")
            self.assertEqual(daemon.recorded(copy).told(), ("", ""))
            daemon.write_record(copy, {"containerd": "2.1.9"})
            self.assertEqual(daemon.recorded(copy).told(), ("2.1.9", versions.RECORDED))
            self.assertEqual(daemon.recorded(copy).socket, "")
            with open(copy + daemon.BESIDE, "w", encoding="utf-8") as file:
                json.dump([], file)
            with self.assertRaises(BadInput):
                daemon.recorded(copy)
            daemon.write_record(copy, {})
            self.assertEqual(os.listdir(folder), [])
