"""Requests in which a reader of the rules went wrong once. tests/test_mock.py plays them at the program too."""
import pathlib

import pytest
from asking import desk
from mock_desk.desk import play

CASES = pathlib.Path(__file__).parent / "cases"
# the word by which a case ends, if it doesn't go on
ENDS = {"target_of_utf_8": "unframed", "too_large": "unframed"}


@pytest.mark.parametrize("name", sorted(it.stem for it in CASES.glob("*.http")))
def test_case(name: str) -> None:
    told = list(play(desk(), (CASES / f"{name}.http").read_bytes()))
    assert b"".join(answer for answer, _ in told) == (CASES / f"{name}.answer").read_bytes()
    assert told[-1][1] == ENDS.get(name, "")
