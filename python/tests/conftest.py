"""What the tests of the package share: a ledger in a folder of its own, and the program."""

from __future__ import annotations

import pathlib
from typing import Callable, Iterator, List

import pytest
from hypothesis import HealthCheck, settings

from samples import START
from zorimarl.ledger import Ledger

Opener = Callable[..., Ledger]

# A machine may be busy: no test hangs on how quickly another draw is made.
settings.register_profile("busy", deadline=None, suppress_health_check=list(HealthCheck))
settings.load_profile("busy")


@pytest.fixture
def file(tmp_path: pathlib.Path) -> str:
    """The name of a journal that isn't there yet."""
    return str(tmp_path / "journal")


@pytest.fixture
def opened(file: str) -> Iterator[Opener]:
    """Opens a ledger on that journal, which is ended with the test."""
    made: List[Ledger] = []

    def opener(first: bytes = START, bits: int = 0, **more: object) -> Ledger:
        made.append(Ledger(file, first, bits, **more))  # type: ignore[arg-type]
        return made[-1]

    yield opener
    for each in made:
        each.kill()
