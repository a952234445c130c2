"""Makes the wheel of the package (PEP 517) with the standard library alone: pip needs no network and no setuptools."""

import base64
import hashlib
import pathlib
import re
import tarfile
import zipfile

HERE = pathlib.Path(__file__).resolve().parent.parent
PACKAGE = "mlat_solver"


def field(name):
    """A string of pyproject.toml: Python has no reader of it before 3.11."""
    return re.search(rf'^{name} = "(.*)"$', (HERE / "pyproject.toml").read_text("utf-8"), re.MULTILINE).group(1)


def metadata():
    """The file METADATA of the wheel."""
    pairs = [("Name", PACKAGE), ("Version", field("version")), ("Summary", field("description")),
             ("Requires-Python", field("requires-python")), ("License", field("license"))]
    return "Metadata-Version: 2.1\n" + "".join(f"{name}: {value}\n" for name, value in pairs)


def sources():
    """The files of the package."""
    return [path for path in sorted((HERE / PACKAGE).iterdir()) if path.suffix == ".py" or path.name == "py.typed"]


def build_wheel(wheel_directory, config_settings=None, metadata_directory=None):
    """Writes the wheel, and returns its name."""
    info = f"{PACKAGE}-{field('version')}.dist-info"
    held = {f"{PACKAGE}/{path.name}": path.read_bytes() for path in sources()}
    held[f"{info}/METADATA"] = metadata().encode()
    held[f"{info}/WHEEL"] = b"Wheel-Version: 1.0\nGenerator: mlat_solver\nRoot-Is-Purelib: true\nTag: py3-none-any\n"
    rows = []
    for name, content in held.items():
        digest = base64.urlsafe_b64encode(hashlib.sha256(content).digest()).rstrip(b"=").decode()
        rows.append(f"{name},sha256={digest},{len(content)}\n")
    held[f"{info}/RECORD"] = ("".join(rows) + f"{info}/RECORD,,\n").encode()
    wheel = f"{PACKAGE}-{field('version')}-py3-none-any.whl"
    with zipfile.ZipFile(pathlib.Path(wheel_directory, wheel), "w", zipfile.ZIP_DEFLATED) as out:
        for name, content in held.items():
            out.writestr(name, content)
    return wheel


def build_sdist(sdist_directory, config_settings=None):
    """Writes the sources as an archive, and returns its name."""
    top = f"{PACKAGE}-{field('version')}"
    with tarfile.open(pathlib.Path(sdist_directory, f"{top}.tar.gz"), "w:gz", format=tarfile.PAX_FORMAT) as out:
        for path in [HERE / "pyproject.toml", HERE / "backend" / "wheel.py", *sources()]:
            out.add(path, f"{top}/{path.relative_to(HERE)}")
    return f"{top}.tar.gz"
