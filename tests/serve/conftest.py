"""What the tests behind a proxy share."""

from __future__ import annotations

import pathlib
import tempfile
from collections.abc import Iterator

import pytest
from serve.proxy import Proxy, proxy_in


@pytest.fixture
def proxy() -> Iterator[Proxy]:
    """nginx and HAProxy before the port of a desk."""
    with tempfile.TemporaryDirectory(prefix="serve-") as folder, proxy_in(pathlib.Path(folder)) as made:
        yield made


@pytest.fixture
def patient_proxy() -> Iterator[Proxy]:
    """The same, where HAProxy waits for the desk's answer as long as haproxy.cfg says."""
    with tempfile.TemporaryDirectory(prefix="serve-") as folder, proxy_in(pathlib.Path(folder), {}) as made:
        yield made
