"""The requests that faults are put into, their right answers, and what the desk holds after each of them.

All of it is written from docs/api.md, and none is taken from what the program printed.
"""

MOMENT = "1780315000"
OPERATORS = ["alfa=100", "bravo=100"]
NOON, HALF_PAST, ONE, TWO = 1780315200, 1780317000, 1780318800, 1780322400
TIMES = {NOON: "12:00", HALF_PAST: "12:30", ONE: "13:00", TWO: "14:00"}
PHRASES = {200: "OK", 403: "Forbidden", 404: "Not Found", 500: "Internal Server Error"}
FIRST = "11111111-1111-4111-8111-111111111111"
SECOND = "22222222-2222-4222-8222-222222222222"


def request(method: str, path: str, operator: str, body: str = "") -> bytes:
    """The bytes of a request."""
    length = f"content-length: {len(body)}\r\n" if body else ""
    return f"{method} {path} HTTP/1.1\r\nhost: desk\r\nx-operator: {operator}\r\n{length}\r\n{body}".encode()


def answer(status: int, body: str) -> bytes:
    """The bytes of an answer with a status and a body."""
    head = f"HTTP/1.1 {status} {PHRASES[status]}\r\ncontent-type: application/json\r\n"
    return f"{head}content-length: {len(body)}\r\nconnection: close\r\n\r\n{body}".encode()


def volume(lower: int, upper: int, start: int, end: int, footprint: str) -> str:
    """A volume of a request; altitudes in decimetres, Unix seconds, the footprint a member in JSON."""
    ends = ",".join(
        f'"{name}":{{"format":"RFC3339","value":"2026-06-01T{TIMES[second]}:00Z"}}'
        for name, second in (("time_end", end), ("time_start", start))
    )
    return f'{{{ends},"volume":{{"altitude_lower":{lower},"altitude_upper":{upper},{footprint}}}}}'


def put(operator: str, plan: str, priority: int, asked: str, usage: str = "Planned") -> bytes:
    """A PUT of a flight over one volume."""
    flight = f'"area":[{asked}],"uas_state":"Nominal","usage_state":"{usage}"'
    levels = f'"astm_f3548_21":{{"priority":{priority}}},"basic_information":{{{flight}}}'
    body = f'{{"execution_style":"IfAllowed","flight_plan":{{{levels}}}}}'
    return request("PUT", f"/flight_plans/{plan}", operator, body)


def clear(operator: str, asked: str) -> bytes:
    """A request to clear an extent."""
    return request("POST", "/clear_area_requests", operator, f'{{"extent":{asked}}}')


def done(status: str) -> bytes:
    """The answer to a PUT or a DELETE that was completed."""
    return answer(200, f'{{"flight_plan_status":"{status}","notes":"","planning_result":"Completed"}}')


def cleared(count: int) -> bytes:
    """The answer to a clear."""
    return answer(200, f'{{"outcome":{{"message":"cleared {count}","success":true}}}}')


def point(altitude: int, second: int, priority: int) -> str:
    """A member `conflict` at the first leaf of the curve."""
    return f'"conflict":{{"altitude":{altitude},"cell":"0000000000000001","priority":{priority},"second":{second}}},'


def shown(plan: str, priority: int, area: str, conflict: str = "", state: str = "Planned") -> str:
    """A plan as a GET shows it: its one volume without its seconds is `area`, its window and its lines follow."""
    status = {"InUse": "OkToFly"}.get(state, state)
    lines = f'"flight_plan_id":"{plan}","flight_plan_status":"{status}","priority":{priority}'
    return f'{{"area":[{area}],{conflict}{lines},"uas_state":"Nominal","usage_state":"{state}"}}'


def area_shown(lower: int, upper: int, start: int, end: int, footprint: str) -> str:
    """A volume as a GET shows it."""
    extent = f'"altitude_lower":{lower},"altitude_upper":{upper},{footprint}'
    return f'{{{extent},"second_end":{end},"second_start":{start}}}'


def listed(*plans: str) -> bytes:
    """The answer to a List."""
    return answer(200, f'{{"flight_plans":[{",".join(plans)}]}}')


CELL, FACE = '"cells":["04"]', '"cells":["1"]'
STRIP = '"rectangle":{"face":0,"i_max":100,"i_min":100,"j_max":0,"j_min":0,"level":24}'
ALFAS_CELL = (0, 1000, NOON, ONE, CELL)
ALFAS_STRIP = (2000, 3000, NOON, ONE, STRIP)
BRAVOS_FACE = (500, 2000, HALF_PAST, TWO, FACE)

# alfa's two plans and bravo's one, as they are shown at some time
LOW = shown(FIRST, 10, area_shown(*ALFAS_CELL))
LOW_BLOCKED = shown(FIRST, 10, area_shown(*ALFAS_CELL), point(500, HALF_PAST, 20))
HIGH = shown(FIRST, 25, area_shown(*ALFAS_CELL))
RAISED = shown(SECOND, 10, area_shown(*ALFAS_STRIP))
OVER = shown(FIRST, 20, area_shown(*BRAVOS_FACE))
OVER_BLOCKED = shown(FIRST, 20, area_shown(*BRAVOS_FACE), point(500, HALF_PAST, 25))
OVER_CLOSED = shown(FIRST, 20, area_shown(*BRAVOS_FACE), state="Closed")

REFUSED = answer(
    200,
    "{"
    + point(500, HALF_PAST, 10)
    + '"flight_plan_status":"NotPlanned","notes":"conflict","planning_result":"Rejected"}',
)
UNKNOWN = answer(403, '{"error":"unknown_operator"}')

# a request, its right answer, and what a List of alfa and one of bravo answer afterwards
STEPS = [
    (put("alfa", FIRST, 10, volume(*ALFAS_CELL)), done("Planned"), listed(LOW), listed()),
    (put("bravo", FIRST, 10, volume(*BRAVOS_FACE)), REFUSED, listed(LOW), listed()),
    (put("bravo", FIRST, 20, volume(*BRAVOS_FACE)), done("Planned"), listed(LOW_BLOCKED), listed(OVER)),
    (put("alfa", SECOND, 10, volume(*ALFAS_STRIP)), done("Planned"), listed(LOW_BLOCKED, RAISED), listed(OVER)),
    (request("GET", "/flight_plans", "alfa"), listed(LOW_BLOCKED, RAISED), listed(LOW_BLOCKED, RAISED), listed(OVER)),
    (
        request("GET", f"/flight_plans/{FIRST}", "alfa"),
        answer(200, LOW_BLOCKED),
        listed(LOW_BLOCKED, RAISED),
        listed(OVER),
    ),
    (put("alfa", FIRST, 25, volume(*ALFAS_CELL)), done("Planned"), listed(HIGH, RAISED), listed(OVER_BLOCKED)),
    (clear("alfa", volume(0, 3000, NOON, ONE, FACE)), cleared(2), listed(), listed(OVER)),
    (request("DELETE", f"/flight_plans/{FIRST}", "bravo"), done("Closed"), listed(), listed(OVER_CLOSED)),
    (request("GET", "/flight_plans", "bravo"), listed(OVER_CLOSED), listed(), listed(OVER_CLOSED)),
]

REQUESTS = b"".join(step[0] for step in STEPS)
ANSWERS = [step[1] for step in STEPS]

# What is asked to read a desk, and what it answers: before any enrolment, after each of them, after each request.
READING = request("GET", "/flight_plans", "alfa") + request("GET", "/flight_plans", "bravo")
CONTENTS = [UNKNOWN + UNKNOWN, listed() + UNKNOWN, listed() + listed()] + [step[2] + step[3] for step in STEPS]
ENROLLED = len(OPERATORS)
