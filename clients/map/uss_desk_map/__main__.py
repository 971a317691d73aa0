"""python3 -m uss_desk_map: the map, at a port of this machine."""
import sys

try:
    from uss_desk_map.command import main
except ImportError as missing:
    needed = "apt-get install -y python3-aiohttp libjs-leaflet, and run it by Debian's own python3"
    sys.exit(f"uss_desk_map: {missing.name} isn't there for {sys.executable}: {needed}")

sys.exit(main())
