"""python3 -m interuss_bridge: the bridge at a port of this machine.

It prints the address at which it listens, as http://127.0.0.1:8090/TOKEN. Whoever has the token plans as the
operator. It listens at 127.0.0.1 unless it is given another address, and checks no tokens of InterUSS's own: put
something before it that does.
"""
import argparse
import os
import re
import secrets
import sys

try:
    from aiohttp import web

    from interuss_bridge.server import Bridge
    from uss_desk_client import Desk
except ImportError as missing:
    needed = "apt-get install -y python3-aiohttp, and run it by Debian's own /usr/bin/python3"
    sys.exit(f"interuss_bridge: {missing.name} isn't there for {sys.executable}: {needed}")


def main() -> None:
    words = argparse.ArgumentParser(prog="interuss_bridge", description=__doc__)
    words.add_argument("--desk", default=os.environ.get("USS_DESK_URL"), help="its URL (or USS_DESK_URL)")
    words.add_argument(
        "--user",
        default=os.environ.get("USS_DESK_USER"),
        help="behind a proxy (or USS_DESK_USER); its password is USS_DESK_PASSWORD",
    )
    words.add_argument(
        "--operator",
        default=os.environ.get("USS_DESK_OPERATOR"),
        help="at the desk's own port (or USS_DESK_OPERATOR)",
    )
    words.add_argument("--host", default="127.0.0.1", help="the address to listen at (127.0.0.1)")
    words.add_argument("--port", type=int, default=8090)
    words.add_argument(
        "--token",
        default=os.environ.get("USS_DESK_BRIDGE_TOKEN") or secrets.token_urlsafe(32),
        help="with which paths begin, of A-Z, a-z, 0-9, - and _ (or USS_DESK_BRIDGE_TOKEN; a new one if absent)",
    )
    words.add_argument(
        "--patience",
        type=float,
        default=30.0,
        metavar="SECONDS",
        help="how long to retry a request that the desk doesn't answer (30)",
    )
    words.add_argument(
        "--has-conflict", action="store_true", help="answer with the member has_conflict, for editions that have it"
    )
    asked = words.parse_args()
    if not asked.desk:
        words.error("no desk is named: use --desk or USS_DESK_URL")
    if not re.fullmatch("[A-Za-z0-9_-]+", asked.token):
        words.error("the token has other characters than A-Z, a-z, 0-9, - and _")
    try:
        if asked.operator:
            desk = Desk(asked.desk, operator=asked.operator, patience=asked.patience)
        else:
            desk = Desk(
                asked.desk, user=asked.user, password=os.environ.get("USS_DESK_PASSWORD", ""), patience=asked.patience
            )
    except ValueError as wrong:
        words.error(str(wrong))
    bridge = Bridge(desk, asked.token, asked.has_conflict, asked.host)
    print(f"listening http://{asked.host}:{asked.port}/{asked.token}", flush=True)
    web.run_app(bridge.application(), host=asked.host, port=asked.port, print=lambda *_: None)


main()
