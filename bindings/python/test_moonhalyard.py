"""Tests of the module, against the installed library: python3 test_moonhalyard.py TEXT"""

import os
import sys
import tempfile
import threading
import unittest

import moonhalyard
from moonhalyard import Message, NoState, Offers, Ran, Refused, State, Step, Tally

with open(sys.argv.pop(1), "rb") as file:
    TEXT = file.read()


class Calls(unittest.TestCase):
    def setUp(self):
        self.plan = moonhalyard.text(TEXT)
        self.state = State(self.plan)

    def refused(self, number, call, *asked, **named):
        with self.assertRaises(Refused) as raised:
            call(*asked, **named)
        self.assertEqual(raised.exception.number, number)
        self.assertIn(moonhalyard.says(number), str(raised.exception))
        return raised.exception

    def test_version(self):
        self.assertEqual(moonhalyard.version(), moonhalyard.VERSION)

    def test_plan(self):
        self.assertEqual(moonhalyard.accept(self.plan), 5)
        self.assertEqual(self.state.plan, self.plan)
        self.assertEqual(moonhalyard.write(moonhalyard.rows(self.plan)), self.plan)
        self.assertEqual(moonhalyard.mend(self.plan), (self.plan, 0))
        self.assertEqual(moonhalyard.text(moonhalyard.draw(self.plan)), self.plan)
        self.assertTrue(moonhalyard.draw(self.plan).startswith("variable v0"))
        self.assertEqual(self.refused(9, moonhalyard.draw, self.plan + b"\0").place, len(self.plan))
        start, length = moonhalyard.show(self.plan, 1)
        self.assertEqual(self.plan[start], 2)
        self.assertGreater(length, 1)
        self.refused(16, moonhalyard.show, self.plan, 99)
        self.assertEqual(self.refused(9, moonhalyard.accept, self.plan + b"\0").place, len(self.plan))
        self.refused(9, State, self.plan + b"\0")
        self.assertEqual(self.refused(32 + 21, moonhalyard.text, "variable n\n\tempty").place, 2)

    def test_order(self):
        state = self.state
        self.assertEqual(state.offers(), Offers(0, False))
        self.refused(10, state.step, 0)
        state.post(0, 0, 7, 9)
        self.refused(13, state.post, 0, 64, 1)
        self.refused(13, state.post, 0, 0, 1, 2, 3, 4, 5)
        self.assertRaises(ValueError, state.post, 0, 0, 2**32)
        self.assertEqual(state.waiting, [Message(0, 0, (7, 9))])
        self.refused(12, state.step, 1)
        self.assertEqual(state.offer(0), Step(0, 1, 0, "none"))
        self.assertEqual(state.step(0), Step(0, 1, 0, "none"))
        self.assertEqual(state.orders[0].variables, {0: 7, 1: 9})
        self.assertIsNone(state.collect())
        self.assertEqual(state.run([0, 0], 5), Ran(1, 10))
        self.assertEqual(state.collect(), Message(3, 1, (7, 9)))
        state.post(5, 1, 7, reply=63)
        self.refused(13, state.post, 5, 1, 7, reply=64)
        self.assertRaises(ValueError, state.post, 5, 1, 7, reply=2**32)
        self.assertEqual(state.collect(), Message(5, 1, (7,), 63))
        state.post(1, 2, 7)
        self.assertEqual(state.step(0).end, "well")
        self.assertEqual(state.tally, Tally(1, 1, 0, 0, 0))
        self.assertEqual(state.orders, [])

    def test_list(self):
        state = self.state
        self.assertEqual(state.list(), [])
        for i in range(9):
            state.post(0, 0, i, 9)
            if i % 2 == 0:
                state.step(0)
        many = state.offers().many
        self.assertGreater(many, 4)
        steps = [state.offer(choice) for choice in range(many)]
        self.assertEqual(state.list(), steps)
        self.assertEqual(state.list(2, 2), steps[2:4])
        self.assertEqual(state.list(many), [])
        self.assertEqual(state.list(2**32 - 1), [])
        self.assertEqual(state.list(0, 0), [])

    def test_told(self):
        state = self.state
        state.post(0, 0, 7, 9)
        state.post(1, 2, 7)
        other = State.from_bytes(state.to_bytes())
        self.assertEqual(state.tell([0, 0], 1), (Ran(1, 0), [other.step(0)]))
        steps = [other.step(0), other.step(0)]
        self.assertEqual(steps[1].end, "well")
        self.assertEqual(state.tell([0] * 9), (Ran(2, 10), steps))
        self.assertEqual(state.to_bytes(), other.to_bytes())
        self.assertEqual(state.tell([], 9), (Ran(0, 0), []))

    def test_kept(self):
        with tempfile.TemporaryDirectory() as folder:
            name = os.path.join(folder, "state")
            self.assertRaises(FileNotFoundError, moonhalyard.kept(name).__enter__)
            with moonhalyard.kept(name, self.plan) as state:
                state.post(0, 0, 7, 9)
            with self.assertRaises(KeyError), moonhalyard.kept(name) as state:
                state.post(0, 0, 8, 9)
                raise KeyError
            with moonhalyard.kept(name) as state:
                self.assertEqual(len(state.waiting), 1)
            with moonhalyard.kept(name, self.plan, fresh=True) as state:
                self.assertEqual(len(state.waiting), 0)
            with open(name, "wb") as file:
                file.write(b"MOONHAL1")
            self.assertRaises(NoState, moonhalyard.kept(name).__enter__)
            self.assertEqual(sorted(os.listdir(folder)), ["state", "state.lock"])

    def test_seal(self):
        kept = self.state.to_bytes()
        seal = moonhalyard.seal(kept)
        self.assertEqual(moonhalyard.seal(b""), 1)
        self.assertEqual(moonhalyard.seal(b"ab"), (98 + 196) * 2**32 + 196)
        for at in (0, 1, 5000, len(kept) - 1):
            self.assertNotEqual(moonhalyard.seal(kept[:at] + bytes([kept[at] ^ 1]) + kept[at + 1 :]), seal)
            self.assertNotEqual(moonhalyard.seal(kept[:at]), seal)

    def test_threads(self):
        def work(thread):
            for i in range(16):
                self.state.post(0, 0, thread, i)

        threads = [threading.Thread(target=work, args=(n,)) for n in range(4)]
        for thread in threads:
            thread.start()
        for thread in threads:
            thread.join()
        self.assertEqual({m.values for m in self.state.waiting}, {(n, i) for n in range(4) for i in range(16)})


if __name__ == "__main__":
    unittest.main()
