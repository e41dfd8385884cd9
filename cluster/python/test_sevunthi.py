"""Tests of the Python client: the bytes of docs/WIRE.md, lost answers, and calls to a cluster of its own on this
machine. PORT is the cluster's first port, else one is taken by the number of this process."""

import os
import pathlib
import re
import shutil
import signal
import socket
import struct
import subprocess
import tempfile
import threading
import time
import unittest

import lock
import sevunthi
from sevunthi import (
    Client, Collision, Found, Mismatch, Names, NoName, NotLetIn, Refusal, Refused, Target, Unasked, Unknown
)
from sevunthi_large import Large

HERE = pathlib.Path(__file__).resolve().parent
PROGRAM = HERE.parent / "target/release/sevunthi"
PORT = int(os.environ.get("PORT") or 26000 + os.getpid() % 200 * 10)
TARGET = Target.on(port=PORT)


def examples():
    """The worked bytes of the page, by their names."""
    page = (HERE.parent.parent / "docs/WIRE.md").read_text()
    found, name = {}, ""
    for line in "\n".join(re.findall(r"^```\n(.*?)^```", page, re.M | re.S)).split("\n"):
        if line.startswith("  "):
            found[name] = found.get(name, b"") + bytes.fromhex(line)
        else:
            name = line
    return found


class Wire(unittest.TestCase):
    """What needs no cluster."""

    def test_the_bytes_are_those_of_the_page(self):
        page = examples()
        request = sevunthi.request
        self.assertEqual(page['put "hello" at table 1, key 5; number 7'], request(sevunthi.PUT, 7, 1, 5, b"hello"))
        self.assertEqual(page["get of table 1, key 5; number 8"], request(sevunthi.GET, 8, 1, 5))
        condition = struct.pack("<Q", 3) + b"hello"
        name = 'put "hello" at table 1, key 5, if its version is 3; number 7'
        self.assertEqual(page[name], request(sevunthi.PUT_IF, 7, 1, 5, condition))
        name = "scan of table 1, keys 5 to 9, at most 100 values; number 7"
        self.assertEqual(page[name], request(sevunthi.SCAN, 7, 1, 5, struct.pack("<QI", 9, 100)))
        hello = page["who operates the cluster, to the first coordinator"]
        self.assertEqual(hello, bytes([65, sevunthi.VERSION, 64, 64]))
        create = request(sevunthi.CREATE, 1, 3, sevunthi.ANY_HOST)
        self.assertEqual(page["create table 3 at any host; number 1"], create)

    def test_the_refusals_are_those_of_the_crate(self):
        crate = (HERE.parent / "client/src/refusal.rs").read_text()
        rows = set(re.findall(r'\(Refusal::\w+, (\d+), "\w+", "([^"]+)"', crate))
        named = {("102", "WRONG"), ("103", "NO_ROOM"), ("104", "NOT_ALLOWED"), ("107", "NOT_LEADING")}
        named.add(("108", "IN_CLEAR"))
        for code, name in named:
            reason = re.search(rf'Refusal::\w+, {name}, "\w+", "([^"]+)"', crate)[1]
            rows.add((code, reason))
        mine = {(str(it.code), it.reason) for it in Refusal if it is not Refusal.OTHER}
        self.assertEqual(mine, rows)
        self.assertEqual(Refusal.of(200), Refusal.OTHER)

    def test_a_file_may_have_several_coordinators(self):
        with tempfile.NamedTemporaryFile("w", suffix=".txt") as file:
            file.write("0 a:1\ncoordinator b:2 # leads or not\ncoordinator c:3\n1 [::1]:4\n")
            file.flush()
            target = sevunthi.Target.of_file(file.name)
        self.assertEqual((target.hosts, target.coordinators), (2, 2))
        self.assertEqual(target.places, (("a", 1), ("::1", 4), ("b", 2), ("c", 3)))

    def test_what_no_host_takes_is_refused_here(self):
        client = Client(TARGET)
        for key, value, refusal in [(2**63, b"", Refusal.WRONG), (5, bytes(1025), Refusal.VALUE_TOO_LONG)]:
            for ask in (client.put, client.put_if_absent, lambda *words: client.put_if(*words[:2], 0, words[2])):
                with self.assertRaises(Refused) as said:
                    ask(1, key, value)
                self.assertIs(said.exception.refusal, refusal)

    def test_a_lost_answer_of_a_write_is_unknown_and_a_read_is_asked_again(self):
        with socket.create_server(("127.0.0.1", 0)) as coordinator, socket.create_server(("127.0.0.1", 0)) as host:
            asked = []

            def swallow(stream):
                asked.append(stream.recv(100))

            def name_owner(stream):
                stream.recv(1)
                while question := stream.recv(100):
                    stream.sendall(struct.pack("<IBQQ", 17, 0, *struct.unpack_from("<Q", question, 5), 0))

            def serve(listener, answer):
                while True:
                    try:
                        with listener.accept()[0] as stream:
                            answer(stream)
                    except OSError:
                        return

            for words in [(host, swallow), (coordinator, name_owner)]:
                threading.Thread(target=serve, args=words, daemon=True).start()
            target = Target(tuple(it.getsockname() for it in (host, coordinator)))
            with Client(target, patience=0.3, wait=1.0) as client:
                with self.assertRaises(Unknown):
                    client.put(1, 5, b"x")
                self.assertEqual(len(asked), 1)
                with self.assertRaises(Unknown):
                    client.get(1, 5)
                self.assertGreater(len(asked), 3)

    def test_a_name_has_the_key_of_the_page(self):
        page, name = examples(), b"greeting"
        put = sevunthi.request(sevunthi.PUT_IF_ABSENT, 7, 1, sevunthi.key_of(name), Names._stored(name, b"hello"))
        self.assertEqual(page['put "hello" at the name "greeting" of table 1, if there is none; number 7'], put)

    def test_what_is_no_name_or_too_long_is_not_asked_for(self):
        names = Names(Client(Target.on(port=1)), 1)
        for name in (b"", bytes(257)):
            for ask in (names.get, names.delete, lambda it: names.put(it, b""), lambda it: names.put_if_absent(it, b"")):
                with self.assertRaises(ValueError):
                    ask(name)
        with self.assertRaises(Refused) as said:
            names.put(b"abc", bytes(1021))
        self.assertIs(said.exception.refusal, Refusal.VALUE_TOO_LONG)

    def test_a_file_says_where_each_listens(self):
        with tempfile.NamedTemporaryFile("w", suffix=".cluster") as file:
            file.write("# two\n1 host-b:7300 # there\ncoordinator [fe80::1]:7000\n0 10.0.0.1:7300\n")
            file.flush()
            places = (("10.0.0.1", 7300), ("host-b", 7300), ("fe80::1", 7000))
            self.assertEqual(Target.of_file(file.name).places, places)
            file.write("3 a:1\n")
            file.flush()
            with self.assertRaises(ValueError):
                Target.of_file(file.name)

    def test_where_security_is_wanted_that_is_said(self):
        with socket.create_server(("127.0.0.1", 0)) as listener:
            at = listener.getsockname()[:2]

            def answer():
                for said in (b"S\2\4", struct.pack("<IBQQ", 17, 108, 1, 0)):
                    stream = listener.accept()[0]
                    with stream:
                        stream.recv(100)
                        stream.sendall(said)

            thread = threading.Thread(target=answer)
            thread.start()
            target = Target((at, at))
            with self.assertRaises(NotLetIn) as not_let_in:
                Client(target, operates=True).create(8)
            self.assertIn("has security", str(not_let_in.exception))
            with self.assertRaises(Refused) as refused:
                Client(target).put(1, 5, b"x")
            self.assertIs(refused.exception.refusal, Refusal.IN_CLEAR)
            thread.join()

    def test_where_nobody_listens_that_is_said(self):
        with self.assertRaises(Unasked):
            Client(Target.on(port=1), patience=0.1).put(1, 5, b"x")


class Cluster(unittest.TestCase):
    """Calls to a cluster."""

    @classmethod
    def setUpClass(cls):
        cls.folder = tempfile.mkdtemp()
        words = [PROGRAM, "up", "--insecure", "--hosts", "4", "--port", str(PORT), "--folder", f"{cls.folder}/data"]
        cls.said = open(f"{cls.folder}/said", "w+")
        cls.up = subprocess.Popen(words, stdout=cls.said, stderr=cls.said)
        end = time.monotonic() + 20
        while True:
            try:
                Client(TARGET, operates=True).create(1, 0)
                return
            except (OSError, Unasked, Refused, Unknown) as error:
                if isinstance(error, Refused) and error.refusal is Refusal.TABLE_EXISTS:
                    return
                if end < time.monotonic():
                    cls.tearDownClass()
                    raise
                time.sleep(0.1)

    @classmethod
    def tearDownClass(cls):
        cls.up.terminate()  # (who starts this may have it leave SIGINT alone)
        cls.up.wait(20)
        cls.said.close()
        shutil.rmtree(cls.folder)

    def test_what_is_written_is_read(self):
        with Client(TARGET) as client:
            self.assertEqual(client.get(1, 1), Found(0))
            self.assertEqual(client.put(1, 1, b"hello"), 1)
            self.assertEqual(client.get(1, 1), Found(1, b"hello"))
            self.assertEqual(client.put(1, 1, b""), 2)
            self.assertEqual(client.get(1, 1), Found(2, b""))
            self.assertEqual(client.delete(1, 1), 3)
            self.assertEqual(client.get(1, 1), Found(3))
            self.assertIn("is owned by", client.status())
            self.assertIn("server_runs", client.status(0))

    def test_ranges_are_read_in_order(self):
        with Client(TARGET) as client:
            for key in range(900, 930, 3):
                client.put(1, key, b"%d" % key)
            client.delete(1, 906)
            found = [(it.key, it.value) for it in client.entries(1, 901, 927)]
            keys = [903, 909, 912, 915, 918, 921, 924, 927]
            self.assertEqual(found, [(key, b"%d" % key) for key in keys])
            page = client.scan(1, 901, 927, most=2)
            self.assertEqual(([it.key for it in page.entries], page.next), ([903, 909], 912))
            for first, last in [(928, 929), (9, 8)]:
                self.assertEqual(client.scan(1, first, last), sevunthi.Page((), None))
            with self.assertRaises(Refused) as said:
                client.scan(1, 2**63, 2**64 - 1)
            self.assertIs(said.exception.refusal, Refusal.WRONG)

    def test_conditions_hold_or_show_what_is_there(self):
        with Client(TARGET) as client:
            self.assertEqual(client.put_if_absent(1, 2, b"a"), 1)
            with self.assertRaises(Mismatch) as there:
                client.put_if_absent(1, 2, b"b")
            self.assertEqual(there.exception.found, Found(1, b"a"))
            self.assertEqual(client.put_if(1, 2, 1, b"b"), 2)
            for ask in (lambda: client.put_if(1, 2, 1, b"c"), lambda: client.delete_if(1, 2, 3)):
                with self.assertRaises(Mismatch) as there:
                    ask()
                self.assertEqual(there.exception.found, Found(2, b"b"))
            self.assertEqual(client.delete_if(1, 2, 2), 3)
            with self.assertRaises(Mismatch) as there:
                client.put_if(1, 2, 2, b"d")
            self.assertEqual(there.exception.found, Found(3))
            self.assertEqual(client.put_if_absent(1, 2, b"e"), 4)

    def test_names_are_keys(self):
        with Client(TARGET) as client:
            names, long = Names(client, 1), bytes(256)
            self.assertEqual(names.get(b"name"), Found(0))
            self.assertEqual((names.put(b"name", b"a"), names.put(b"name", b"b"), names.put(long, bytes(767))), (1, 2, 1))
            self.assertEqual((names.get(b"name"), names.get(long)), (Found(2, b"b"), Found(1, bytes(767))))
            self.assertEqual(names.put_if(b"name", 2, b"c"), 3)
            for ask in (
                lambda: names.put_if(b"name", 2, b"d"),
                lambda: names.put_if_absent(b"name", b"d"),
                lambda: names.delete_if(b"name", 2),
            ):
                with self.assertRaises(Mismatch) as there:
                    ask()
                self.assertEqual(there.exception.found, Found(3, b"c"))
            self.assertEqual((names.delete_if(b"name", 3), names.delete(b"name")), (4, 4))
            self.assertEqual((names.put_if_absent(b"name", b"e"), names.delete(b"name")), (5, 6))

    def test_another_name_at_the_key_is_never_overwritten(self):
        with Client(TARGET) as client:
            names, key = Names(client, 1), sevunthi.key_of(b"mine")
            client.put(1, key, b"\x06anothertheirs")
            for ask in (
                lambda: names.get(b"mine"),
                lambda: names.put(b"mine", b"x"),
                lambda: names.put_if(b"mine", 1, b"x"),
                lambda: names.put_if_absent(b"mine", b"x"),
                lambda: names.delete(b"mine"),
                lambda: names.delete_if(b"mine", 1),
            ):
                with self.assertRaises(Collision) as said:
                    ask()
                self.assertEqual(said.exception.other, b"another")
            self.assertEqual(client.get(1, key), Found(1, b"\x06anothertheirs"))
            client.put(1, key, b"\x06short")
            with self.assertRaises(NoName):
                names.get(b"mine")
            client.delete(1, key)
            self.assertEqual(names.put(b"mine", b"x"), 4)

    def test_values_are_kept_in_pieces(self):
        with Client(TARGET, operates=True) as client:
            client.create(11)
            client.create(12)
            large = Large(client, 11, 12)
            for version, length in enumerate([20000, 0, 30001], 1):
                self.assertEqual(large.put(b"name", bytes([version]) * length), version)
                self.assertEqual(large.get(b"name"), Found(version, bytes([version]) * length))
            self.assertEqual((large.delete(b"name"), large.get(b"name"), large.left), (4, Found(4), []))

    def test_what_is_no_request_is_told_so(self):
        with Client(TARGET) as client:
            client.put(1, 4, b"x")
            wrong = [(200, b""), (sevunthi.PUT_IF, b"short"), (sevunthi.DELETE_IF, b""), (sevunthi.CREATE, b"")]
            for op, value in wrong:
                self.assertEqual(client._call(0, op, 1, 4, value, 3.0).code, sevunthi.WRONG)
            self.assertEqual(client.get(1, 4), Found(1, b"x"))

    def test_hosts_are_tried_where_the_coordinator_does_not_answer(self):
        with Client(Target((*TARGET.places[:-1], ("127.0.0.1", 1)))) as client:
            self.assertEqual(client.put(1, 8, b"x"), 1)
            self.assertEqual(client.get(1, 8), Found(1, b"x"))
            client.patience = 0.2
            with self.assertRaises(Unasked):
                client.get(9, 5)

    def test_tables_are_made_and_split_by_who_operates_the_cluster(self):
        with Client(TARGET, operates=True) as client:
            client.create(7)
            with self.assertRaises(Refused) as said:
                client.create(7)
            self.assertIs(said.exception.refusal, Refusal.TABLE_EXISTS)
            client.split(7, 100)
            client.put(7, 99, b"below")
            client.put(7, 100, b"above")
            self.assertEqual(client.get(7, 99).value, b"below")
        with self.assertRaises(Refused):
            Client(TARGET).create(8)
        with self.assertRaises(Unasked), Client(TARGET) as client:
            client.get(9, 5)

    def test_many_requests_are_under_way_at_once(self):
        with Client(TARGET) as client, client.connect(1, 0) as connection:
            numbers = [connection.put(1, 1000 + key, str(key).encode()) for key in range(500)]
            said = []
            while connection.under_way:
                said += connection.wait()
            self.assertEqual(sorted(number for number, _ in said), numbers)
            self.assertTrue(all(found == Found(1) for _, found in said))
            connection.get(1, 1007)
            connection.put_if(1, 1007, 5, b"x")
            connection.put_if_absent(1, 1007, b"x")
            connection.delete_if(1, 1008, 1)
            said = {}
            while connection.under_way:
                said.update(connection.wait())
            self.assertEqual((said[500], said[503]), (Found(1, b"7"), Found(2)))
            self.assertEqual((said[501].found, said[502].found), (Found(1, b"7"), Found(1, b"7")))

    def test_a_lock_has_one_holder_while_its_owner_ends(self):
        held, tokens = [], []

        def hold(name):
            with Client(TARGET) as client:
                for _ in range(4):
                    token = lock.take(Names(client, 1), b"lock", name, 5.0)
                    held.append(name)
                    tokens.append(token)
                    time.sleep(0.1)
                    self.assertEqual(held, [name])
                    held.remove(name)
                    lock.let_go(Names(client, 1), b"lock", token)

        threads = [threading.Thread(target=hold, args=(f"thread-{number}",)) for number in range(3)]
        for thread in threads:
            thread.start()
        time.sleep(0.5)
        self.kill_owner()
        for thread in threads:
            thread.join(60)
        self.assertEqual((len(tokens), held), (12, []))
        self.assertEqual(tokens, sorted(set(tokens)))

    def kill_owner(self):
        with Client(TARGET) as client:
            owner = re.search(r"table 1 keys 0 .* is owned by (\d+)\.", client.status())[1]
        text = pathlib.Path(self.folder, "said").read_text()
        process = re.findall(rf"^process (\d+) is .*/host{owner}$", text, re.M)[-1]
        os.kill(int(process), signal.SIGKILL)


if __name__ == "__main__":
    unittest.main()
