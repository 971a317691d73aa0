"""The map as an HTTP server at 127.0.0.1: its page, what the page asks of the desk, and nothing to anybody else."""
from __future__ import annotations

import asyncio
import json
from pathlib import Path
from typing import Any, Awaitable, Callable, Dict, Iterator, Optional, TypeVar

from aiohttp import web

from uss_desk_client import Desk, Ground
from uss_desk_map.calls import CALLS, GROUND, STEPS, Words, next_step
from uss_desk_map.door import Asked, Door, guards
from uss_desk_map.drafts import Wrong, draft_of
from uss_desk_map.telling import Told, trouble, trouble_of

Result = TypeVar("Result")
Handler = Callable[[web.Request], Awaitable[web.StreamResponse]]
PAGE = Path(__file__).resolve().parent / "static"
LEAFLET = Path("/usr/share/javascript/leaflet")
"""Where Debian's libjs-leaflet lies."""
FROM_LEAFLET = ("leaflet.js", "leaflet.css", "images/layers.png", "images/layers-2x.png")
TYPES = {
    ".js": "text/javascript",
    ".css": "text/css",
    ".html": "text/html",
    ".png": "image/png",
    ".svg": "image/svg+xml",
}
MOST_BYTES = 1_000_000
"""Of a request of the page."""
STRANGER = "This map is reached by the address alone that uss_desk_map has printed.\n"


def files_of(page: Path = PAGE, leaflet: Path = LEAFLET) -> Dict[str, Path]:
    """Each file that the page is made of, by its path in the address. A FileNotFoundError if one is missing."""
    files = {f"static/{found.name}": found for found in sorted(page.iterdir()) if found.suffix in TYPES}
    files[""] = files.pop("static/index.html")
    files.update({f"leaflet/{name}": leaflet / name for name in FROM_LEAFLET})
    for found in files.values():
        if not found.is_file():
            raise FileNotFoundError(f"{found} isn't there: apt-get install -y libjs-leaflet")
    return files


class Map:
    """The server of one operator's map. `desk` makes the desk anew for each request, with the password as it is then;
    `setting` is what the page gets of it; `known` is what is known of the ground and the sea."""

    def __init__(
        self,
        door: Door,
        desk: Callable[[], Desk],
        setting: Told,
        tiles: Optional[str] = None,
        known: Ground = Ground(),
    ) -> None:
        self._door, self._desk, self._setting, self._known = door, desk, setting, known
        self._guards, self._files = guards(tiles), files_of()
        self._turn: Optional[asyncio.Lock] = None

    def application(self) -> web.Application:
        application = web.Application(middlewares=[self._guarded], client_max_size=MOST_BYTES)
        application.on_response_prepare.append(self._put_guards)
        application.add_routes([web.route("*", "/{path:.*}", self._answer)])
        return application

    # ---- who asks

    @web.middleware
    async def _guarded(self, request: web.Request, handler: Handler) -> web.StreamResponse:
        if self._door.refusal(asked_of(request)) is not None:
            return web.Response(status=403, text=STRANGER)
        return await handler(request)

    async def _put_guards(self, _: web.Request, response: web.StreamResponse) -> None:
        response.headers.update(self._guards)

    # ---- what is asked

    async def _answer(self, request: web.Request) -> web.StreamResponse:
        path = self._door.inner(request.raw_path) or ""
        if request.method == "GET" and path in self._files:
            return self._file(self._files[path])
        if request.method == "GET" and path == "api/setting":
            return web.json_response(self._setting)
        name = path[len("api/") :] if path.startswith("api/") else ""
        if request.method == "POST" and (name in CALLS or name in GROUND):
            return await self._call(name, request)
        if request.method == "POST" and name in STEPS:
            return await self._steps(name, request)
        return web.Response(status=404, text="There is nothing here.\n")

    @staticmethod
    def _file(found: Path) -> web.Response:
        return web.Response(body=found.read_bytes(), content_type=TYPES[found.suffix], charset="utf-8")

    async def _call(self, name: str, request: web.Request) -> web.Response:
        try:
            words = words_of(await request.read(), self._known)
            if name in GROUND:
                return web.json_response(await in_thread(lambda: GROUND[name](words)))
            call = CALLS[name]
            if not call.is_change:
                return web.json_response(await in_thread(lambda: call.run(self._desk(), words)))
            changing = asyncio.ensure_future(self._change(lambda: call.run(self._desk(), words)))
            return web.json_response(await asyncio.shield(changing))
        except Exception as why:
            return refused(why)

    async def _change(self, run: Callable[[], Told]) -> Told:
        """Makes a change, after all that were asked before it: also if the page has gone meanwhile."""
        self._turn = self._turn or asyncio.Lock()
        async with self._turn:
            return await in_thread(run)

    async def _steps(self, name: str, request: web.Request) -> web.StreamResponse:
        """Answers step by step, a line of JSON for each, until the page wants no more."""
        try:
            steps = STEPS[name](self._desk(), words_of(await request.read(), self._known))
        except Exception as why:
            return refused(why)
        response = web.StreamResponse(headers={"Content-Type": "application/x-ndjson"})
        await response.prepare(request)
        while not is_gone(request):
            step = await next_told(steps)
            if step is None:
                break
            try:
                await response.write(json.dumps(step).encode() + b"\n")
            except ConnectionError:
                break
        return response


def is_gone(request: web.Request) -> bool:
    return request.transport is None or request.transport.is_closing()


async def in_thread(run: Callable[[], Result]) -> Result:
    """What waits for the desk, in a thread of its own."""
    return await asyncio.get_running_loop().run_in_executor(None, run)


async def next_told(steps: Iterator[Told]) -> Optional[Told]:
    """The next step, or the trouble that ends them; None after the last one."""
    try:
        return await in_thread(lambda: next_step(steps))
    except Exception as why:
        told = trouble_of(why)
        if told is None:
            raise
        return {"trouble": told}


def refused(why: Exception) -> web.Response:
    """The answer to a request of which nothing came; an error of this server's own is raised."""
    if isinstance(why, web.HTTPException):
        return web.json_response({"trouble": trouble("drawn", "", why.reason)}, status=why.status)
    told = trouble_of(why)
    if told is None:
        raise why
    return web.json_response({"trouble": told}, status=400 if told["kind"] == "drawn" else 502)


def asked_of(request: web.Request) -> Asked:
    fields: Dict[str, Any] = {}
    for name, value in request.headers.items():
        fields.setdefault(name.lower(), []).append(value)
    return Asked(request.method, request.raw_path, fields)


def words_of(data: bytes, known: Ground) -> Words:
    """The object that a body is; a draft in it is one that is read."""
    try:
        value = json.loads(data)
    except (ValueError, RecursionError):
        raise Wrong("the body is no JSON") from None
    if not isinstance(value, dict):
        raise Wrong("the body is no object")
    return {**value, "draft": draft_of(value["draft"], known)} if "draft" in value else value
