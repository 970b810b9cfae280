"""Go's numbers and times, and the texts of moments."""
from __future__ import annotations

import unittest

import tools

assert tools.TOP  # tools finds the modules of the tool
from metad_host import numbers
from metad_host.faults import BadInput

DAY = numbers.DAY


class Varints(unittest.TestCase):
    def test_numbers_of_any_length(self):
        self.assertEqual(numbers.uvarint(b"\x00", "it"), 0)
        self.assertEqual(numbers.uvarint(b"\xe7\x24", "it"), 4711)
        self.assertEqual([numbers.varint(bytes([byte]), "it") for byte in range(5)],
                         [0, -1, 1, -2, 2])
        self.assertEqual(numbers.varint(b"\xc8\x01rest", "it"), 100)

    def test_what_is_none(self):
        for data in (b"", b"\x80", b"\xff" * 11):
            with self.assertRaisesRegex(BadInput, "it is no number"):
                numbers.varint(data, "it")


class Days(unittest.TestCase):
    def test_days_of_the_calendar(self):
        self.assertEqual(numbers.day_number(1970, 1, 1), 0)
        self.assertEqual(numbers.day_number(2024, 2, 29), 19782)
        for date in ((2023, 2, 29), (1900, 2, 29), (2024, 0, 1), (2024, 13, 1), (2024, 4, 31)):
            self.assertIsNone(numbers.day_number(*date))

    def test_each_day_has_its_date(self):
        for number in list(range(-719528, -719100)) + list(range(19000, 19800)) + [2932896]:
            self.assertEqual(numbers.day_number(*numbers.date_of(number)), number)


class Moments(unittest.TestCase):
    def test_what_metad_reads(self):
        for text in ("2024-03-01T00:00:00Z", "0000-01-01T00:00:00.5+23:59", "9998-12-31T23:59:59Z"):
            self.assertTrue(numbers.is_moment(text), text)
        for text in ("2024-03-01t00:00:00Z", "9999-01-01T00:00:00Z", "2024-02-30T00:00:00Z",
                     "2024-03-01T5:00:00Z", "2024-03-01T00:00:00,5Z", "2024-03-01T24:00:00Z",
                     "2024-03-01T00:00:00Z\n", "2024-03-01T00:00:00.0000000000Z"):
            self.assertFalse(numbers.is_moment(text), text)

    def test_what_go_reads_beyond(self):
        five = numbers.go_moment("2024-03-01T05:00:00Z")
        for text in ("2024-03-01T5:00:00Z", "2024-03-01T06:30:00+01:30", "2024-03-01T05:00:00,0Z"):
            self.assertEqual(numbers.go_moment(text), five)
        self.assertEqual(numbers.go_moment("2024-03-01T05:00:00.0000000019Z"), five + 1)
        for text in ("tomorrow", "2024-03-01T25:00:00Z", "2024-03-01", "2024-03-01T05:60:00Z"):
            self.assertIsNone(numbers.go_moment(text))

    def test_offsets_that_one_version_of_go_reads(self):
        self.assertTrue(numbers.is_offset_of_go_119("2024-03-01T05:00:00-99:00"))
        for text in ("2024-03-01T05:00:00+24:00", "2024-03-01T05:00:00Z", "tomorrow"):
            self.assertFalse(numbers.is_offset_of_go_119(text))

    def test_texts_read_back(self):
        for moment in (0, 1, -1, 19782 * DAY + 5 * 10 ** 8, numbers.EARLIEST, numbers.LATEST):
            text = numbers.moment_text(moment)
            self.assertTrue(numbers.is_moment(text), text)
            self.assertEqual(numbers.go_moment(text), moment)
        self.assertEqual(numbers.moment_text(numbers.LATEST + 1),
                         numbers.moment_text(numbers.LATEST))

    def test_times_in_go_s_binary_form(self):
        data = b"\x01\x00\x00\x00\x0e\xdd\x72\x1a\x00\x00\x00\x00\x07\xff\xff"
        moment = numbers.go_moment("2024-03-01T00:00:00Z")
        self.assertEqual(numbers.moment_text(numbers.binary_time(data, "it"))[:3], "202")
        self.assertEqual(numbers.binary_time(data, "it") % numbers.SECOND, 7)
        seconds = moment // numbers.SECOND + numbers.YEAR_ONE
        data = b"\x01" + seconds.to_bytes(8, "big") + bytes(4) + b"\xff\xff"
        self.assertEqual(numbers.binary_time(data, "it"), moment)
        for data in (b"", b"\x03" + bytes(14), bytes(15)):
            with self.assertRaisesRegex(BadInput, "it is no time"):
                numbers.binary_time(data, "it")
