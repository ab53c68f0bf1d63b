"""The stories of `bindings/stories`, by this package."""
from __future__ import annotations

import unittest

from bully.faults import FAULTS
from bully import status_name
from stories import Reader
from .interpreter import tell

STORIES = [story for story in Reader({status_name(0), *map(status_name, FAULTS)}).stories() if not story.is_for_c]


class Stories(unittest.TestCase):
    def test_stories(self) -> None:
        self.assertGreater(len(STORIES), 10)
        for story in STORIES:
            with self.subTest(story.name):
                tell(story)
