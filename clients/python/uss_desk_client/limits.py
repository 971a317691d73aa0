"""The desk's limits, each in this one place; docs/api.md, "Limits", says the same."""

MAX_BODY = 131_072
"""Bytes of a body."""
MAX_VOLUMES = 32
"""Volumes of a plan."""
MAX_CELLS = 64
"""Cells of a cell list."""
MAX_COVER = 1_024
"""Cells of the canonical cover of a rectangle."""
LOWEST = -10_000
"""The least altitude, in decimetres above the WGS84 ellipsoid."""
HIGHEST = 200_000
"""The greatest upper altitude, in decimetres above the WGS84 ellipsoid."""
LAST_SECOND = 253_370_764_800
"""The latest end of a volume, a Unix second."""
MAX_LENGTH = 86_400
"""Seconds from a volume's start to its end."""
MAX_AHEAD = 2_592_000
"""Seconds from the moment of a request to a volume's start."""
MAX_PRIORITY = 1_000
"""The greatest priority, and the greatest ceiling."""
MAX_PLANS = 200
"""Plans of an operator, closed ones too."""
MAX_TIME_BYTES = 64
"""Bytes of the text of a time."""
MAX_DEPTH = 127
"""Arrays and objects of a body that lie in one another."""
LEAST_LEVEL, GREATEST_LEVEL = 8, 24
"""Levels of a rectangle's squares."""
GREATEST_COORDINATE = 2**30 - 1
"""The greatest coordinate of a leaf on its face."""
