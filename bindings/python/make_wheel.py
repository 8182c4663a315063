"""What pip calls to install the two modules (PEP 517): a wheel has them as they are, so no tool is needed to make it."""

import base64
import hashlib
import re
import zipfile
from pathlib import Path

HERE = Path(__file__).resolve().parent
MODULES = ("sctp_endpoint.py", "sctp_channels.py")


def _project():
    """Name, version, description and least Python of pyproject.toml."""
    text = (HERE / "pyproject.toml").read_text(encoding="utf-8")
    return [re.search(rf'^{field} = "(.*)"$', text, re.M)[1] for field in ("name", "version", "description", "requires-python")]


def build_wheel(wheel_directory, config_settings=None, metadata_directory=None):
    """Writes the wheel to this folder, and returns its name."""
    name, version, description, python = _project()
    stem = f"{name.replace('-', '_')}-{version}"
    files = {module: (HERE / module).read_bytes() for module in MODULES}
    metadata = f"Metadata-Version: 2.1\nName: {name}\nVersion: {version}\nSummary: {description}\nRequires-Python: {python}\n"
    files[f"{stem}.dist-info/METADATA"] = metadata.encode()
    files[f"{stem}.dist-info/WHEEL"] = b"Wheel-Version: 1.0\nGenerator: make_wheel\nRoot-Is-Purelib: true\nTag: py3-none-any\n"
    record = "".join(f"{path},sha256={_digest(data)},{len(data)}\n" for path, data in files.items())
    files[f"{stem}.dist-info/RECORD"] = f"{record}{stem}.dist-info/RECORD,,\n".encode()
    wheel = f"{stem}-py3-none-any.whl"
    with zipfile.ZipFile(Path(wheel_directory) / wheel, "w", zipfile.ZIP_DEFLATED) as archive:
        for path, data in files.items():
            archive.writestr(path, data)
    return wheel


def _digest(data):
    return base64.urlsafe_b64encode(hashlib.sha256(data).digest()).rstrip(b"=").decode()
