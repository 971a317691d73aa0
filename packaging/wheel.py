"""Makes the wheel of the Python client: `pip install FILE.whl` needs no network, no compiler and no setuptools.

A wheel is a zip file of the package with a folder that describes it. The bytes are the same each time.
"""
import base64
import hashlib
import pathlib
import zipfile

TOP = pathlib.Path(__file__).resolve().parent.parent
SOURCE = TOP / "clients" / "python" / "uss_desk_client"
NAME = "uss_desk_client"
# The earliest time that a zip file can have.
WHEN = (1980, 1, 1, 0, 0, 0)
WHEEL = "Wheel-Version: 1.0\nGenerator: packaging/wheel.py\nRoot-Is-Purelib: true\nTag: py3-none-any\n"
COMMANDS = "[console_scripts]\nuss-plan = uss_desk_client.command:main\n"


def metadata(version: str) -> str:
    """What pip shows of the package."""
    return (
        f"Metadata-Version: 2.1\nName: uss-desk-client\nVersion: {version}\n"
        "Summary: A client of the planning desk: areas as S2 cells, requests, and what their answers mean\n"
        "Requires-Python: >=3.9\n"
    )


def files(version: str) -> dict[str, bytes]:
    """The files of the wheel by their names, but for the one that lists them."""
    found = {f"{NAME}/{path.name}": path.read_bytes() for path in sorted(SOURCE.iterdir()) if path.is_file()}
    about = f"{NAME}-{version}.dist-info"
    texts = {"METADATA": metadata(version), "WHEEL": WHEEL, "entry_points.txt": COMMANDS}
    return {**found, **{f"{about}/{name}": text.encode() for name, text in texts.items()}}


def record(content: dict[str, bytes], name: str) -> bytes:
    """The list of all files with their checksums, which pip compares."""

    def checksum(data: bytes) -> str:
        return base64.urlsafe_b64encode(hashlib.sha256(data).digest()).rstrip(b"=").decode()

    lines = [f"{path},sha256={checksum(data)},{len(data)}\n" for path, data in content.items()]
    return "".join([*lines, f"{name},,\n"]).encode()


def build(version: str, folder: pathlib.Path) -> pathlib.Path:
    """Writes the wheel into a folder; its path."""
    content = files(version)
    name = f"{NAME}-{version}.dist-info/RECORD"
    content[name] = record(content, name)
    path = folder / f"{NAME}-{version}-py3-none-any.whl"
    with zipfile.ZipFile(path, "w", zipfile.ZIP_STORED) as wheel:
        for file, data in content.items():
            entry = zipfile.ZipInfo(file, WHEN)
            entry.external_attr = 0o644 << 16
            wheel.writestr(entry, data)
    return path
