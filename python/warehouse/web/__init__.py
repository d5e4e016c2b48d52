"""Pages: one player under the page of a finished log (`play`) and under that of a running floor (`dashboard`)."""
from __future__ import annotations

import os

HERE = os.path.dirname(os.path.abspath(__file__))


def asset(name: str) -> str:
    """The text of a file of this folder."""
    with open(os.path.join(HERE, name), encoding='utf-8') as file:
        return file.read()


def page(scripts: str, side: str = '') -> str:
    """The page with these scripts at its end, and these sections first beside the floor."""
    return asset('player.html').replace('<!--SIDE-->', side, 1).replace('<!--SCRIPTS-->', scripts, 1)
