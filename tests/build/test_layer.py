"""The layer of C, as it is made of a header: what stands in a wrapper, and what no wrapper is made of."""
import subprocess
import unittest

from building.crates import Stopped
from building.layer import read_header, wrappers
from stand_in import ROOT

HEADER = """/* bully_status bully_in_comment(void); */
#include <stdint.h>
typedef uint32_t bully_status;

enum {{
    BULLY_OK = 0, /* all is well */
    BULLY_NULL = 20
}};

typedef struct bully_thing {{
    void *held;
}} bully_thing;

const char *bully_status_name(bully_status status);
{}
"""
EVERY_KIND = """bully_status bully_take(bully_thing *thing, const uint16_t *old, size_t old_count, uint64_t now,
                        char *text, size_t room, size_t *length);
bully_status bully_rest(void);"""
WRAPPERS = """__typeof__(bully_take) bully_c_take;
bully_status bully_take(bully_thing *thing, const uint16_t *old, size_t old_count, uint64_t now, char *text, \
size_t room, size_t *length) {
    if (thing == NULL || !can_lie(old, old_count, sizeof *old) || !can_lie(text, room, sizeof *text) \
|| length == NULL) {
        return BULLY_NULL;
    }
    return bully_c_take(thing, source(old, old_count), old_count, now, target(text, room), room, length);
}

__typeof__(bully_rest) bully_c_rest;
bully_status bully_rest(void) {
    return bully_c_rest();
}
"""
# What the header's rule says nothing of, with the words in which it is refused.
REFUSED = {
    'bully_status bully_take(const char *name);': 'name of bully_take is a text without its length',
    'bully_status bully_take(uint8_t *bytes, uint32_t length);': 'bytes of bully_take is a text without its length',
    'bully_status bully_take(size_t length, const char *name);': 'length of bully_take is a length after no pointer',
    'bully_status bully_take(char *a, size_t b, size_t c);': 'c of bully_take is a length after no pointer',
    'bully_status bully_take(int number);': 'number of bully_take is no number of a known size',
    'bully_status bully_take(bully_thing thing);': 'thing of bully_take is no number of a known size',
    'bully_status bully_take(bully_other *other);': 'other of bully_take is a pointer to what is not known',
    'bully_status bully_take(void *items, size_t count);': 'items of bully_take is a pointer to what is not known',
    'uint32_t bully_take(void);': 'bully_take gives uint32_t',
    'bully_status bully_take(bully_thing **things);': 'not understood here: bully_thing **things',
    'bully_status bully_take(uint16_t nodes[4]);': 'not understood here: uint16_t nodes[4]',
    'bully_status bully_take(void (*call)(void));': 'not understood here: void (*call)(void)',
    'bully_status bully_take(uint32_t number, ...);': 'not understood here: ...',
}  # fmt: skip


class Layer(unittest.TestCase):
    def test_a_wrapper_tests_what_the_header_means(self) -> None:
        header = read_header(HEADER.format(EVERY_KIND))
        self.assertEqual(wrappers(header), WRAPPERS)
        self.assertEqual(
            [function.name for function in header.functions], ['bully_status_name', 'bully_take', 'bully_rest']
        )
        self.assertEqual((list(header.structures), header.statuses), (['bully_thing'], {'OK': 0, 'NULL': 20}))

    def test_what_the_rule_says_nothing_of_is_refused_in_words(self) -> None:
        for declared, words in REFUSED.items():
            with self.subTest(declared=declared), self.assertRaises(Stopped) as refused:
                wrappers(read_header(HEADER.format(declared)))
            self.assertIn(words, str(refused.exception))

    def test_the_wrappers_can_be_read(self) -> None:
        printed = subprocess.run(
            ['python3', '-m', 'building.layer'], cwd=ROOT / 'bin', stdout=subprocess.PIPE, text=True, check=True
        ).stdout
        self.assertIn(
            '\nbully_status bully_check(const uint8_t *trace, size_t length, bully_verdict *verdict) {\n', printed
        )
