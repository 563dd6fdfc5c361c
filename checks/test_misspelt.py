"""Tests that the reader of places.py finds the wrong word where misspelt.py has put it."""

import json
import random
import unittest

import misspelt
import places
import rules
import whole_texts


class Misspelt(unittest.TestCase):
    def test_the_wrong_word_is_found(self):
        count = 0
        for way in set(misspelt.WAYS):
            for seed in range(30):
                spoilt = way(random.Random(seed))
                if spoilt.place is None:
                    continue
                stop = places.stop_of(spoilt.text)
                if stop is None or places.is_other(spoilt.text):
                    continue
                found = stop.number, places.column_at(stop.words(), stop.place())
                self.assertEqual(found, spoilt.place, f"{way.__name__} {spoilt.text}")
                count += 1
        self.assertGreater(count, 80)

    def test_a_text_has_the_name_of_its_kind(self):
        for seed in range(20):
            self.assertTrue(misspelt.script(random.Random(seed)).startswith(b"{"))
            self.assertTrue(misspelt.history_text(random.Random(seed)).startswith(b"aqs-history"))

    def test_a_script_has_one_thread_or_several(self):
        counts = {len(json.loads(misspelt.script(random.Random(seed)))["threads"]) for seed in range(40)}
        self.assertEqual(counts, {1, 2, 4})

    def test_each_text_that_is_to_be_spoilt_is_right(self):
        for text in whole_texts.LINES:
            reader = rules.read_steps if text.startswith(b"aqs-steps") else rules.read_history
            self.assertGreater(reader(text)[0].seats, 0)
        self.assertIsNone(rules.script_fault(json.dumps(whole_texts.SCRIPT).encode()))

    def test_most_spoilt_texts_are_wrong(self):
        texts = [spoilt.text for spoilt in misspelt.each_spoilt()]
        scripts = [text for text in texts if text.startswith(b"{")]
        self.assertGreater(len(texts) - len(scripts), 1100)
        faults = {(rules.script_fault(text) or "a right script").split()[1] for text in scripts}
        self.assertEqual(faults, {"right", "top", "object", "thread", "call"})

    def test_a_member_is_replaced_in_a_copy(self):
        made = whole_texts.replaced(whole_texts.SCRIPT, ("threads", 2, "calls", 0), "gate drain")
        self.assertEqual(made["threads"][2]["calls"], ["gate drain"])
        self.assertEqual(whole_texts.SCRIPT["threads"][2]["calls"], ["object-1 give x 4294967295"])


if __name__ == "__main__":
    unittest.main()
