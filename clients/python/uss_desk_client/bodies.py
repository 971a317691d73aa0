"""The body of a PUT."""
from __future__ import annotations

from typing import Any, Dict, Sequence

from uss_desk_client.areas import Volume


def put_body(area: Sequence[Volume], usage: str, aircraft: str, priority: int, style: str) -> Dict[str, Any]:
    """The body of a PUT."""
    return {
        "execution_style": style,
        "flight_plan": {
            "astm_f3548_21": {"priority": priority},
            "basic_information": {
                "area": [volume.to_json() for volume in area],
                "uas_state": aircraft,
                "usage_state": usage,
            },
        },
    }
