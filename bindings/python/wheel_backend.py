"""Makes the wheel of this folder with the standard library alone, so that `pip install` works without a network.

The wheel has the package, and with it `libinputplay.so` where that file stands beside the package's modules.
"""

import base64
import hashlib
import zipfile
from pathlib import Path

HERE = Path(__file__).resolve().parent
NAME, VERSION = "inputplay", "1.0.0"
INFO = f"{NAME}-{VERSION}.dist-info"
METADATA = f"Metadata-Version: 2.1\nName: {NAME}\nVersion: {VERSION}\nRequires-Python: >=3.8\n"
WHEEL = "Wheel-Version: 1.0\nGenerator: wheel_backend\nRoot-Is-Purelib: true\nTag: py3-none-any\n"


def digest_of(content):
    """The digest of a file as a wheel's list of files has it."""
    digest = base64.urlsafe_b64encode(hashlib.sha256(content).digest()).rstrip(b"=")
    return "sha256=" + digest.decode()


def files_of_package():
    """The names and bytes of the package's files."""
    for path in sorted((HERE / NAME).iterdir()):
        if path.suffix in (".py", ".txt", ".typed") or path.name.startswith("libinputplay.so"):
            yield f"{NAME}/{path.name}", path.read_bytes()


def build_wheel(wheel_directory, config_settings=None, metadata_directory=None):
    """Writes the wheel, and gives its name."""
    files = [*files_of_package(), (f"{INFO}/METADATA", METADATA.encode()), (f"{INFO}/WHEEL", WHEEL.encode())]
    listed = "".join(f"{name},{digest_of(content)},{len(content)}\n" for name, content in files)
    name = f"{NAME}-{VERSION}-py3-none-any.whl"
    with zipfile.ZipFile(Path(wheel_directory) / name, "w", zipfile.ZIP_DEFLATED) as wheel:
        for path, content in [*files, (f"{INFO}/RECORD", f"{listed}{INFO}/RECORD,,\n".encode())]:
            wheel.writestr(path, content)
    return name
