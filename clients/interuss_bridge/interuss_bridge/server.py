"""The bridge as an HTTP server: one operator's messages, asked of the desk one after the other."""
from __future__ import annotations

import asyncio
import hmac
import json
from datetime import datetime, timezone
from typing import Any, Awaitable, Callable, Dict, Optional, TypeVar

from aiohttp import web

from interuss_bridge.messages import Malformed, NotSupported, extent_of, planning_response, read_object, response_of
from interuss_bridge.messages import upsert_of
from uss_desk_client import Desk, DeskError, NoAnswer, NoSuchPlan, Refused

Result = TypeVar("Result")
Handler = Callable[[web.Request], Awaitable[web.StreamResponse]]
API_NAME = "Flight Planning Automated Testing Interface"
STATUS_PATIENCE = 2.0
"""Seconds after which a desk that doesn't answer is told as starting."""
LOOPBACK = ("127.0.0.1", "localhost", "[::1]")
JSON = "application/json"


class Bridge:
    """Takes messages for one operator, under paths that begin with a token, at the loopback names and at `host`.
    `tells_conflict` puts the member `has_conflict` into responses, for editions that have it."""

    def __init__(self, desk: Desk, token: str, tells_conflict: bool = False, host: str = LOOPBACK[0]) -> None:
        self._desk, self._token, self._tells_conflict = desk, token, tells_conflict
        self._names = (*LOOPBACK, host.lower())
        self._turn: Optional[asyncio.Lock] = None

    def application(self) -> web.Application:
        application = web.Application(middlewares=[self._guarded, worded])
        application.add_routes(
            [
                web.get("/{token}/status", self.status),
                web.put("/{token}/flight_plans/{flight_plan_id}", self.upsert),
                web.delete("/{token}/flight_plans/{flight_plan_id}", self.delete),
                web.post("/{token}/clear_area_requests", self.clear),
            ]
        )
        return application

    @web.middleware
    async def _guarded(self, request: web.Request, handler: Handler) -> web.StreamResponse:
        """Answers whoever has the token, and no web page: a browser says of a request that a page sent it, and a page
        can't send JSON as such to another site."""
        name = request.headers.get("host", "").lower()
        name = name[: name.rindex("]") + 1] if name.startswith("[") and "]" in name else name.partition(":")[0]
        if name not in self._names:
            return refusal(421, "host", "the bridge is asked under another name than its own")
        if "origin" in request.headers or request.headers.get("sec-fetch-site", "none") != "none":
            return refusal(403, "from_a_page", "a web page asks")
        token = request.path[1:].partition("/")[0]
        if not hmac.compare_digest(token.encode("utf-8", "replace"), self._token.encode()):
            return refusal(
                403, "token", "the path begins with another token than the address that the bridge printed"
            )
        if request.can_read_body and request.content_type != JSON:
            return refusal(415, "content_type", f"the body's type isn't {JSON}")
        return await handler(request)

    async def _ask(self, call: Callable[..., Result], *words: Any) -> Result:
        """A call of the client, which waits, in a thread of its own; one at a time, in the order of the messages."""
        self._turn = self._turn or asyncio.Lock()
        async with self._turn:
            return await asyncio.get_running_loop().run_in_executor(None, call, *words)

    async def status(self, _: web.Request) -> web.Response:
        try:
            status = await asyncio.get_running_loop().run_in_executor(None, self._desk.status, STATUS_PATIENCE)
        except NoAnswer:
            status = "Starting"
        return web.json_response({"status": status, "api_name": API_NAME, "api_version": "v1"})

    async def upsert(self, request: web.Request) -> web.Response:
        plan_id = request.match_info["flight_plan_id"]
        message = read_object(await request.read())
        try:
            asked = upsert_of(message)
        except NotSupported as why:
            return await self._as_stored("NotSupported", plan_id, str(why))
        try:
            answer = await self._ask(self._desk.put, plan_id, asked.body)
        except NoAnswer as why:
            return await self._as_stored("Failed", plan_id, str(why))
        return web.json_response(response_of(answer, self._tells_conflict))

    async def delete(self, request: web.Request) -> web.Response:
        plan_id = request.match_info["flight_plan_id"]
        try:
            answer = await self._ask(self._desk.close, plan_id)
        except NoAnswer as why:
            return await self._as_stored("Failed", plan_id, str(why))
        except NoSuchPlan as why:
            return self._told("Rejected", "NotPlanned", f"{why.word}: {why.advice}")
        return web.json_response(response_of(answer, self._tells_conflict))

    async def clear(self, request: web.Request) -> web.Response:
        message = read_object(await request.read())
        count = 0
        try:
            for volume in extent_of(message):
                count += (await self._ask(self._desk.clear, [volume])).count
        except (NotSupported, NoAnswer) as why:
            return web.json_response(outcome(False, f"cleared {count}, then: {why}" if count else str(why)))
        return web.json_response(outcome(True, f"cleared {count}"))

    async def _as_stored(self, result: str, plan_id: str, notes: str) -> web.Response:
        """A result that changed nothing, as far as is known, with the status of the plan as it is stored."""
        try:
            status = (await self._ask(self._desk.show, plan_id)).status
        except NoSuchPlan:
            status = "NotPlanned"
        return self._told(result, status, notes)

    def _told(self, result: str, status: str, notes: str) -> web.Response:
        """A result that no conflict brought about."""
        return web.json_response(planning_response(result, status, notes, False if self._tells_conflict else None))


def outcome(is_success: bool, message: str) -> Dict[str, Any]:
    """A ClearAreaResponse."""
    now = datetime.now(timezone.utc).strftime("%Y-%m-%dT%H:%M:%SZ")
    return {"outcome": {"success": is_success, "message": message, "timestamp": now}}


@web.middleware
async def worded(request: web.Request, handler: Handler) -> web.StreamResponse:
    """Refusals as JSON: {"error":WORD,"message":TEXT}."""
    try:
        return await handler(request)
    except Malformed as why:
        return refusal(400, "bad_message", str(why))
    except Refused as why:
        is_callers = why.status in (400, 413)
        return refusal(why.status if is_callers else 502, why.word, str(why.fault or why.advice))
    except DeskError as why:
        return refusal(502, "bad_gateway", str(why))
    except web.HTTPException as why:
        names = {404: "no_route", 405: "method", 413: "too_large"}
        answer = refusal(why.status, names.get(why.status, "bad_message"), why.reason)
        if "allow" in why.headers:
            answer.headers["allow"] = why.headers["allow"]
        return answer


def refusal(status: int, name: str, message: str) -> web.Response:
    return web.Response(status=status, content_type=JSON, text=json.dumps({"error": name, "message": message}))
