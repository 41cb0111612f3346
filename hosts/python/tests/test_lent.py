"""What a caller may lend: any form of bytes, numbers that fit, and nothing else."""

from __future__ import annotations

import array
import subprocess
import sys
import threading
import unittest
from typing import List

import trawlbeacon as tb
from trawlbeacon import Refusal, Refused

import support


class Lent(unittest.TestCase):
    def test_bytes_in_any_form(self) -> None:
        record = support.draft()[0]
        due = tb.check_signed(record.key, record.request, record.response)
        for form in (bytes, bytearray, memoryview, lambda lent: array.array("B", lent)):
            lent = [form(part) for part in (record.key, record.request, record.response)]
            self.assertEqual(tb.check_signed(*lent), due)
        apart = bytes(2 * len(record.response))
        apart = bytearray(apart)
        apart[::2] = record.response
        self.assertEqual(tb.check_signed(record.key, record.request, memoryview(apart)[::2]), due)
        text = support.vectors("malfeasance-report.json")
        for form in (bytes, bytearray, memoryview, bytes.decode):
            self.assertEqual(tb.read_report(form(text)), support.draft())

    def test_what_is_no_bytes(self) -> None:
        for other in (None, 7, "text", [1, 2], 3.5):
            with self.assertRaises(TypeError):
                tb.read_request(other)
            with self.assertRaises(TypeError):
                tb.srv_value(other)

    def test_lengths_that_are_fixed(self) -> None:
        for length in (0, 31, 33):
            key = bytes(length)
            for call in (
                lambda: tb.srv_value(key),
                lambda: tb.write_request(key, bytes(32)),
                lambda: tb.write_request(bytes(32), key),
                lambda: tb.link(b"", key),
                lambda: tb.check_signed(key, b"", b""),
                lambda: tb.Walk([key] * 3, bytes(32), 5),
                lambda: bytes(tb.Record(key, b"", b"")),
                lambda: tb.Clock.resume(key),
            ):
                self.assertRaises(ValueError, call)

    def test_numbers_that_do_not_fit(self) -> None:
        clock, window = tb.Clock(), tb.Window(0, 1, 0, 1, 0, 9)
        for number in (-1, 1 << 64):
            for call in (
                lambda: support.draft().judge(number),
                lambda: clock.now(number, 0),
                lambda: clock.take(number, window, 0, 0),
                lambda: window.may_use(number),
                lambda: tb.Clock(number),
                lambda: tb.Walk([bytes(32)] * 3, bytes(32), number),
            ):
                self.assertRaises(OverflowError, call)
        self.assertRaises(OverflowError, lambda: tb.Clock(1 << 32))
        self.assertRaises(TypeError, lambda: clock.now(1.5, 0))

    def test_places_past_the_last(self) -> None:
        for place in (3, 16, (1 << 64) - 1):
            with self.assertRaises(Refused) as caught:
                support.draft().judge(place)
            self.assertEqual(caught.exception.code, Refusal.PILE)
            self.assertRaises(IndexError, lambda: support.draft()[place])

    def test_a_full_pile_takes_no_more(self) -> None:
        pile = tb.Pile.of([support.draft()[0]] * tb.MOST_RECORDS)
        with self.assertRaises(Refused) as caught:
            pile.append(support.draft()[0])
        self.assertEqual((caught.exception.code, len(pile)), (Refusal.PILE, 16))

    def test_threads_at_once(self) -> None:
        pile, due = support.draft(), support.draft().check()
        other: List[int] = []

        def work() -> None:
            for _ in range(20):
                if pile.check() != due:
                    other.append(1)

        threads: List[threading.Thread] = [threading.Thread(target=work) for _ in range(4)]
        for thread in threads:
            thread.start()
        for thread in threads:
            thread.join()
        self.assertEqual(other, [])


class Places(unittest.TestCase):
    def test_a_library_that_is_not_there(self) -> None:
        path = {"PYTHONPATH": str(support.ROOT / "hosts/python"), "TRAWLBEACON_LIBRARY": "/no/such"}
        ended = subprocess.run(
            [sys.executable, "-B", "-c", "import trawlbeacon"],
            env=path,
            stderr=subprocess.PIPE,
            text=True,
        )
        self.assertEqual(ended.returncode, 1)
        self.assertIn(
            "ImportError: there is no libtrawlbeacon.so.1: looked for /no/such;", ended.stderr
        )
