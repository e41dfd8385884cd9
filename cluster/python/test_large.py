"""Tests of values in pieces, over a store in memory: others between any two calls, answers that are lost at any call,
and writers that end at any call."""

import hashlib
import unittest
from unittest import mock

import sevunthi
import sevunthi_large
from sevunthi import Found, Mismatch, Names, Refused, Unasked, Unknown
from sevunthi_large import Broken, Changing, Large

NAME = b"name"
HEADERS, PIECES = 1, 2


class Memory:
    """A client of a store in memory: at one of its calls something goes wrong, or others do something."""

    def __init__(self, values=None):
        self.values = {} if values is None else values
        self.calls = 0
        self.fault = self.meanwhile = None

    def other(self):
        return Memory(self.values)

    def count(self, table):
        return sum(1 for (of, _), found in self.values.items() if of == table and found.value is not None)

    def _call(self, does):
        at, self.calls = self.calls, self.calls + 1
        if self.meanwhile and self.meanwhile[0] == at:
            self.meanwhile[1](self.other())
        when, kind = self.fault or (None, None)
        if when is None or at < when or at > when and kind in ("answer lost", "never done"):
            return does()
        if kind == "ends":
            raise Unasked("it has ended")
        if at == when and kind in ("answer lost", "silence"):
            try:
                does()
            except Mismatch:
                pass
        raise Unknown(kind)

    def get(self, table, key):
        return self._call(lambda: self.values.get((table, key), Found(0)))

    def _write(self, table, key, holds, value):
        def does():
            found = self.values.get((table, key), Found(0))
            if not holds(found):
                raise Mismatch(found)
            self.values[table, key] = Found(found.version + 1, value)
            return found.version + 1

        return self._call(does)

    def put_if(self, table, key, version, value):
        return self._write(table, key, lambda found: found.version == version, value)

    def put_if_absent(self, table, key, value):
        return self._write(table, key, lambda found: found.value is None, value)

    def delete_if(self, table, key, version):
        return self._write(table, key, lambda found: found.version == version, None)


def large(memory):
    return Large(memory, HEADERS, PIECES)


def value(byte):
    """A value of three pieces."""
    return bytes(byte ^ at & 255 for at in range(2 * 1003 + 5))


def begun():
    """A store in which the name has `value(1)` at version 1."""
    memory = Memory()
    large(memory).put(NAME, value(1))
    return memory.other()


def put(writer, byte=2):
    """What becomes of a put: its version, or the class of the error."""
    try:
        return writer.put(NAME, value(byte))
    except sevunthi.Error as error:
        return type(error)


def calls_of(what):
    memory = begun()
    what(large(memory))
    return memory.calls


class Tests(unittest.TestCase):
    def seen(self, memory):
        found = large(memory.other()).get(NAME)
        self.assertIn(found.value, [value(byte) for byte in (1, 2, 3)])
        return found

    def test_a_header_has_the_bytes_that_the_crate_writes(self):
        header = sevunthi_large._Pieces(bytes(range(16)), 5, hashlib.sha256(b"hello").digest()).header()
        total = "2cf24dba5fb0a30e26e83b2ac5b9e29e1b161e5c1fa7425e73043362938b9824"
        self.assertEqual(header.hex(), "01" + bytes(range(16)).hex() + "0100000005000000" + total)

    def test_values_of_all_lengths_come_back_and_leave_nothing_behind(self):
        memory = Memory()
        it = large(memory)
        for version, length in enumerate([0, 1, 1002, 1003, 1004, 2006, 2**20], 1):
            put = (bytes(range(251)) * (length // 251 + 1))[:length]
            self.assertEqual(it.put(NAME, put), version)
            self.assertEqual(it.get(NAME), Found(version, put))
            self.assertEqual(memory.count(PIECES), -(-length // 1003))
        with self.assertRaises(Refused):
            it.put(NAME, bytes(2**20 + 1))
        self.assertEqual((it.delete(NAME), it.delete(NAME), it.get(NAME)), (8, 8, Found(8)))
        self.assertEqual((memory.count(HEADERS), memory.count(PIECES), it.left), (0, 0, []))

    def test_conditions_hold_or_nothing_is_written(self):
        memory = begun()
        it = large(memory)
        for ask in (
            lambda: it.put_if(NAME, 2, b"x"),
            lambda: it.put_if_absent(NAME, b"x"),
            lambda: it.delete_if(NAME, 0),
        ):
            with self.assertRaises(Mismatch) as there:
                ask()
            self.assertEqual((there.exception.found, memory.count(PIECES)), (Found(1, b""), 3))
        self.assertEqual((it.put_if(NAME, 1, value(2)), it.delete_if(NAME, 2)), (2, 3))
        self.assertEqual((it.put_if_absent(NAME, b"x"), memory.count(PIECES)), (4, 1))

    def test_a_reader_sees_a_whole_value_while_another_one_writes(self):
        for at in range(calls_of(lambda it: it.get(NAME))):
            memory = begun()
            memory.meanwhile = (at, lambda other: put(large(other)))
            self.assertIn(large(memory).get(NAME).value, [value(1), value(2)])

    def test_one_fault_and_another_writer_at_any_call(self):
        calls = calls_of(put)
        faults = [None] + [(at, kind) for at in range(calls) for kind in ("answer lost", "never done", "ends")]
        for fault in faults:
            for at in [None, *range(calls + 2)]:
                with self.subTest(fault=fault, other=at):
                    memory = begun()
                    memory.fault = fault
                    memory.meanwhile = at is not None and (at, lambda other: put(large(other), 3))
                    writer = large(memory)
                    said = put(writer)
                    memory.fault = memory.meanwhile = None
                    found = self.seen(memory)
                    if at is None:
                        self.assertEqual(found.value == value(2), isinstance(said, int))
                    elif fault is None:
                        self.assertIsInstance(said, int)
                    writer.tidy()
                    self.assertEqual((writer.left, memory.count(PIECES)), ([], 3))

    def test_pieces_of_a_header_of_which_nobody_knows_stay_until_it_is_known(self):
        for at, is_done in [(4, False), (5, True)]:
            memory = begun()
            memory.fault = (at, "silence")
            writer = large(memory)
            self.assertEqual((put(writer), len(writer.left), memory.count(PIECES)), (Unknown, 2, 6))
            memory.fault = None
            writer.tidy()
            self.assertEqual((len(writer.left), memory.count(PIECES)), (0, 3) if is_done else (2, 6))
            self.assertEqual(self.seen(memory).value, value(2 if is_done else 1))
            put(large(memory.other()), 3)
            writer.tidy()
            self.assertEqual((writer.left, memory.count(PIECES)), ([], 3))

    def test_where_a_piece_is_not_acknowledged_it_is_not_done(self):
        memory = begun()
        memory.fault = (2, "silence")
        writer = large(memory)
        self.assertEqual((put(writer), len(writer.left)), (Unasked, 1))
        memory.fault = None
        writer.tidy()
        self.assertEqual((self.seen(memory).value, memory.count(PIECES)), (value(1), 3))

    def test_where_another_name_has_a_pieces_key_another_number_is_drawn(self):
        memory = begun()
        key = sevunthi.key_of(bytes([7] * 16) + b"\1\0\0\0")
        memory.values[PIECES, key] = Found(1, b"\x06another")
        with mock.patch("os.urandom", side_effect=[bytes([7] * 16), bytes([8] * 16)]) as draw:
            self.assertEqual((put(large(memory)), draw.call_count), (2, 2))
        # a number that is drawn twice spoils nothing
        with mock.patch("os.urandom", side_effect=[bytes([8] * 16), bytes([9] * 16)]):
            self.assertEqual(large(memory).put(b"other", value(3)), 1)
        self.assertEqual((self.seen(memory).value, memory.count(PIECES)), (value(2), 7))

    def test_what_was_spoiled_is_told(self):
        memory = begun()
        (at, found), *_ = [entry for entry in memory.values.items() if entry[0][0] == PIECES]
        memory.values[at] = Found(2, found.value[:-1] + bytes([found.value[-1] ^ 1]))
        with self.assertRaises(Broken):
            large(memory).get(NAME)
        Names(memory, HEADERS).put(NAME, b"x")
        with self.assertRaises(Broken):
            large(memory).get(NAME)

    def test_where_others_write_without_end_a_read_ends(self):
        memory = begun()
        reader = large(memory)
        reader.pieces = mock.Mock()
        reader.pieces.get.side_effect = lambda name: put(large(memory.other()), 3) and Found(2)
        with self.assertRaises(Changing):
            reader.get(NAME)


if __name__ == "__main__":
    unittest.main()
