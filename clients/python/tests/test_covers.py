"""The test vectors of docs/covers.json: what every cover contains, and what a right one doesn't."""
import json
from pathlib import Path
from typing import Any

import pytest
import pywraps2 as s2

from uss_desk_client import shapes
from uss_desk_client.library import Google, Library
from uss_desk_client.shapes import Polygon, cells_of
from uss_desk_client.tokens import id_of, leaves_of

VECTORS: list[dict[str, Any]] = json.loads(
    (Path(__file__).resolve().parents[3] / "docs" / "covers.json").read_text()
)["polygons"]


@pytest.mark.parametrize("vector", VECTORS, ids=lambda vector: str(vector["name"]))
@pytest.mark.parametrize("library", [Google(s2), Library()], ids=lambda library: str(library.name))
def test_vector(vector: dict[str, Any], library: Library, monkeypatch: pytest.MonkeyPatch) -> None:
    monkeypatch.setattr(shapes, "library", lambda: library)
    cells = cells_of(Polygon([(x, y) for x, y in vector["ring"]]))
    covered = [leaves_of(id_of(token) or 0) for token in cells]
    for name, is_there in (("inside", True), ("outside", False)):
        for token in vector[name]:
            leaf = id_of(token) or 0
            assert leaf & 1 and any(low <= leaf <= high for low, high in covered) == is_there
    assert not isinstance(library, Google) or cells == vector["cells"]
