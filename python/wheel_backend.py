"""Builds the wheel of `pip install ./python` (PEP 517) by the standard library alone: the module `zakdomp` as a package
with the shared library beside it, the command and the module for numpy. The same bytes give the same wheel."""
import base64
import hashlib
import os
import re
import subprocess
import sysconfig
import tomllib
import zipfile
from typing import Any

HERE = os.path.dirname(os.path.abspath(__file__))
LIBRARY = "libzakdomp.so"


def build_wheel(wheel_directory: str, config_settings: Any = None, metadata_directory: Any = None) -> str:
    """Writes the wheel, and returns its name."""
    contents = contents_of_wheel()
    name = f"{_stem()}-{_tag()}.whl"
    with zipfile.ZipFile(os.path.join(wheel_directory, name), "w", zipfile.ZIP_DEFLATED) as wheel:
        for path, content in {**contents, f"{_stem()}.dist-info/RECORD": _record(contents)}.items():
            entry = zipfile.ZipInfo(path)
            entry.external_attr = 0o100644 << 16
            entry.compress_type = zipfile.ZIP_DEFLATED
            wheel.writestr(entry, content)
    return name


def build_sdist(sdist_directory: str, config_settings: Any = None) -> str:
    raise NotImplementedError("the library is proved and compiled by the repository: there is no source distribution")


def contents_of_wheel() -> dict[str, bytes]:
    """The files of the wheel by their paths, without its record."""
    return {**modules(), **_about()}


def modules() -> dict[str, bytes]:
    """The modules, which can be imported from the folder that they are put in. Each is a package, for only a package
    can say by `py.typed` that its types are to be read."""
    files = {"zakdomp/" + LIBRARY: _library(), "zakdomp_command/py.typed": b""}
    for module in ("zakdomp", "zakdomp_numpy"):
        files |= {f"{module}/__init__.py": _read(module + ".py"), f"{module}/py.typed": b""}
    for name in sorted(os.listdir(os.path.join(HERE, "zakdomp_command"))):
        if name.endswith(".py"):
            files["zakdomp_command/" + name] = _read(os.path.join("zakdomp_command", name))
    return files


def version() -> str:
    """The version that zakdomp.py says."""
    found = re.search(rb'^__version__ = "([0-9.]+)"$', _read("zakdomp.py"), re.MULTILINE)
    assert found, "zakdomp.py says no version"
    return found[1].decode("ascii")


def _about() -> dict[str, bytes]:
    """What the wheel says of itself, and the notice of the code that the library carries over."""
    with open(os.path.join(HERE, "pyproject.toml"), "rb") as file:
        project = tomllib.load(file)["project"]
    metadata = (f"Metadata-Version: 2.1\nName: {project['name']}\nVersion: {version()}\n"
                f"Summary: {project['description']}\nLicense: {project['license']['text']}\nLicense-File: NOTICE\n"
                f"Requires-Python: {project['requires-python']}\n")
    wheel = f"Wheel-Version: 1.0\nGenerator: zakdomp\nRoot-Is-Purelib: false\nTag: {_tag()}\n"
    scripts = "[console_scripts]\n" + "".join(f"{name} = {target}\n" for name, target in project["scripts"].items())
    texts = {"METADATA": metadata, "WHEEL": wheel, "entry_points.txt": scripts}
    files = {name: text.encode("utf-8") for name, text in texts.items()} | {"NOTICE": _read("../NOTICE")}
    return {f"{_stem()}.dist-info/{name}": content for name, content in files.items()}


def _library() -> bytes:
    """The shared library. It is linked here where the static one is there; to prove that takes too long for an
    installer, which says nothing meanwhile."""
    top = os.path.dirname(HERE)
    path = os.environ.get("ZAKDOMP_LIBRARY")
    if not path:
        path = os.path.join(top, "target", "bindings", LIBRARY)
        if os.path.exists(os.path.join(top, "target", "zakdomp", "libzakdomp.a")):
            if subprocess.run([os.path.join(top, "tools", "shared")], check=False).returncode:
                raise SystemExit("zakdomp: tools/shared could not link the library; it says why above")
    if not os.path.exists(path):
        raise SystemExit(f"zakdomp: there is no library yet: run {os.path.join(top, 'tools', 'shared')}, which proves "
                         "and compiles it, and then install again")
    return _read(path)


def _record(contents: dict[str, bytes]) -> bytes:
    lines = [f"{path},sha256={_digest(content)},{len(content)}\n" for path, content in contents.items()]
    return ("".join(lines) + f"{_stem()}.dist-info/RECORD,,\n").encode("ascii")


def _digest(content: bytes) -> str:
    return base64.urlsafe_b64encode(hashlib.sha256(content).digest()).rstrip(b"=").decode("ascii")


def _stem() -> str:
    return f"zakdomp-{version()}"


def _tag() -> str:
    return "py3-none-" + re.sub(r"[-.]", "_", sysconfig.get_platform())


def _read(name: str) -> bytes:
    with open(os.path.join(HERE, name), "rb") as file:
        return file.read()
