"""Who may ask this server: the page that it serves, and nobody else.

The address has a token that nobody can guess. `Host` has to be that of the address, so that a name which somebody lets
point to 127.0.0.1 reaches nothing; `Origin` and `Sec-Fetch-Site` keep the pages of other sites out.
"""
from __future__ import annotations

import hmac
import secrets
from dataclasses import dataclass, field
from typing import Dict, Mapping, Optional, Sequence, Tuple
from urllib.parse import urlsplit

HOST = "127.0.0.1"
TOKEN_BYTES = 32


@dataclass(frozen=True)
class Asked:
    """What of a request decides who asks it: fields with all their values, by small names."""

    method: str
    path: str
    fields: Mapping[str, Sequence[str]]

    def only(self, name: str) -> Optional[str]:
        """The value of a field that is there exactly once."""
        values = self.fields.get(name, ())
        return values[0] if len(values) == 1 else None


@dataclass(frozen=True)
class Door:
    """The address of the page at a port, with a new token."""

    port: int
    token: str = field(default_factory=lambda: secrets.token_urlsafe(TOKEN_BYTES), repr=False)

    @property
    def origin(self) -> str:
        return f"http://{HOST}:{self.port}"

    @property
    def address(self) -> str:
        """That of the page."""
        return f"{self.origin}/{self.token}/"

    def inner(self, path: str) -> Optional[str]:
        """What of a path comes behind the token; None if the token isn't there."""
        first, slash, rest = path[1:].partition("/")
        is_it = hmac.compare_digest(first.encode("utf-8", "replace"), self.token.encode())
        return rest if is_it and slash and path.startswith("/") else None

    def refusal(self, asked: Asked) -> Optional[str]:
        """Why a request isn't answered; None if it is."""
        if asked.only("host") != f"{HOST}:{self.port}":
            return "host"
        rest = self.inner(asked.path)
        if rest is None:
            return "token"
        if "origin" in asked.fields and asked.only("origin") != self.origin:
            return "origin"
        if asked.method not in ("GET", "HEAD") and "origin" not in asked.fields:
            return "origin"
        is_page = rest == "" and asked.method in ("GET", "HEAD")
        if not is_page and "sec-fetch-site" in asked.fields and asked.only("sec-fetch-site") != "same-origin":
            return "site"
        return None


def origin_of(url: str) -> str:
    """The origin of a URL of tiles; a ValueError if it is none. Its path may have {z}, {x} and {y}; a host with {s}
    stands for several, and is refused."""
    parts = urlsplit(url)
    if parts.scheme not in ("http", "https") or not parts.hostname or set("{};,' ") & set(parts.netloc):
        raise ValueError(f"{url!r} is no URL of tiles, as https://tiles.example/{{z}}/{{x}}/{{y}}.png")
    return f"{parts.scheme}://{parts.netloc.rpartition('@')[2]}"


def policy(tiles: Optional[str]) -> str:
    """The content security policy: everything is this page's own, but for the pictures of tiles."""
    pictures = " ".join(["'self'", "data:", *([origin_of(tiles)] if tiles else [])])
    rules: Tuple[Tuple[str, str], ...] = (
        ("default-src", "'none'"),
        ("script-src", "'self'"),
        ("style-src", "'self'"),
        ("img-src", pictures),
        ("connect-src", "'self'"),
        ("base-uri", "'none'"),
        ("form-action", "'none'"),
        ("frame-ancestors", "'none'"),
    )
    return "; ".join(f"{name} {value}" for name, value in rules)


def guards(tiles: Optional[str]) -> Dict[str, str]:
    """The fields that every answer has."""
    return {
        "Content-Security-Policy": policy(tiles),
        "Cache-Control": "no-store",
        "Cross-Origin-Opener-Policy": "same-origin",
        "Cross-Origin-Resource-Policy": "same-origin",
        "Permissions-Policy": "camera=(), geolocation=(), microphone=()",
        "Referrer-Policy": "same-origin",
        "X-Content-Type-Options": "nosniff",
        "X-Frame-Options": "DENY",
    }
