"""What is asked by curl, and what is answered: a plan for tomorrow, since a desk that serves tells the moment by the
clock."""

from __future__ import annotations

import subprocess
from collections import Counter
from collections.abc import Iterable
from datetime import datetime, timedelta, timezone

from harness.places import EXAMPLES

TOMORROW = (datetime.now(timezone.utc) + timedelta(days=1)).date().isoformat()
NOON = int(datetime.fromisoformat(f"{TOMORROW}T12:00:00+00:00").timestamp())
ID = "11111111-1111-4111-8111-111111111111"
PLAN = f"/flight_plans/{ID}"
BODY = (EXAMPLES / "first_put.json").read_text().replace("2026-06-01", TOMORROW).encode()
ABOVE = BODY.replace(b'"altitude_lower":4550', b'"altitude_lower":5050')
"""The same plan higher up, which meets it."""
TOO_LARGE = bytes(131_073)
READY = '{"status":"Ready"} 200'
STORED = '{"flight_plan_status":"Planned","notes":"","planning_result":"Completed"} 200'
CLOSED = '{"flight_plan_status":"Closed","notes":"","planning_result":"Completed"} 200'
BLOCKED = (
    f'{{"conflict":{{"altitude":5050,"cell":"479aa0a800000001","priority":10,"second":{NOON}}},'
    '"flight_plan_status":"NotPlanned","notes":"conflict","planning_result":"Rejected"} 200'
)
SHOWN = (
    f'{{"area":[{{"altitude_lower":4550,"altitude_upper":5550,"cells":["479aa0a84"],"second_end":{NOON + 3600},'
    f'"second_start":{NOON}}}],"flight_plan_id":"{ID}","flight_plan_status":"Planned","priority":10,'
    '"uas_state":"Nominal","usage_state":"Planned"} 200'
)
PUT = ("-X", "PUT", "--data-binary", "@-")
"""curl's words for a PUT of what it is given."""


def operator(name: str) -> tuple[str, ...]:
    """curl's words for an operator at the desk's own port."""
    return "-H", f"x-operator: {name}"


def curl(*words: str, given: bytes = b"", seconds: int = 100) -> tuple[int, str]:
    """curl's status, and what it prints."""
    line = ["curl", "--silent", "--globoff", "--no-progress-meter", "--max-time", str(seconds), *words]
    ran = subprocess.run(line, input=given, stdout=subprocess.PIPE, check=False)
    return ran.returncode, ran.stdout.decode()


def asked(*words: str, given: bytes = b"") -> str:
    """The body and the status of an answer."""
    return curl("--write-out", " %{http_code}", *words, given=given)[1]


def refused(*words: str, given: bytes = b"") -> str:
    """The body of an answer, its status, its type, and after how many seconds to ask again, if it says so."""
    head, _, body = curl("--include", *words, given=given)[1].rpartition("\r\n\r\n")
    lines = head.split("\r\n\r\n")[-1].split("\r\n")
    fields = dict(line.lower().split(": ", 1) for line in lines[1:])
    told = (body, lines[0].split()[1], fields["content-type"], fields.get("retry-after"))
    return " ".join(part for part in told if part is not None)


def counted(texts: Iterable[str]) -> str:
    """Texts, each with how often: `2 200, 4 429`."""
    return ", ".join(f"{count} {text}" for text, count in sorted(Counter(texts).items()))


def statuses(*words: str) -> str:
    """How many answers had which status; curl asks them in one line, by [1-N] in its URL."""
    line = ["curl", "--silent", "--no-progress-meter", "--max-time", "300", "--output", "/dev/null"]
    ran = subprocess.run(
        [*line, "--write-out", "%{http_code}\n", *words], stdout=subprocess.PIPE, text=True, check=False
    )
    return counted(ran.stdout.split())
