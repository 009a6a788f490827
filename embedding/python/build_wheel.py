"""Builds the wheel of the package, as pip asks for it (PEP 517).

The wheel contains the shared library for this machine if there is one. It is the first of these: the library that
MENCIUS_LIBRARY names, native/libmencius.so on Linux on x86-64, and native/out/libmencius.so, which native/translate
builds. Without a library, the package needs MENCIUS_LIBRARY when it is used.
"""
import base64
import hashlib
import os
import re
import sys
import sysconfig
import zipfile

HERE = os.path.dirname(os.path.abspath(__file__))
NATIVE = os.path.join(HERE, "..", "..", "native")
MODULES = os.path.join(HERE, "mencius")


def field(name):
    """A field of pyproject.toml. Python has no reader of TOML before 3.11."""
    with open(os.path.join(HERE, "pyproject.toml"), encoding="utf-8") as file:
        return re.search(rf'^{name} = "(.*)"$', file.read(), re.M)[1]


def library():
    """The path of the library, or None."""
    places = [os.environ.get("MENCIUS_LIBRARY", "")]
    if sysconfig.get_platform() == "linux-x86_64":
        places.append(os.path.join(NATIVE, "libmencius.so"))
    places.append(os.path.join(NATIVE, "out", "libmencius.so"))
    return next((place for place in places if os.path.isfile(place)), None)


def contents():
    """The files of the package, by their names in the wheel."""
    found = {}
    for name in sorted(os.listdir(MODULES)):
        if name.endswith((".py", ".typed")):
            found["mencius/" + name] = os.path.join(MODULES, name)
    if library():
        found["mencius/libmencius.so"] = library()
    for name, path in found.items():
        with open(path, "rb") as file:
            yield name, file.read()


def about(tag):
    """The files that describe the wheel."""
    is_pure = "true" if tag.endswith("any") else "false"
    wheel = f"Wheel-Version: 1.0\nGenerator: mencius\nRoot-Is-Purelib: {is_pure}\nTag: {tag}\n"
    metadata = "".join(f"{key}: {value}\n" for key, value in (
        ("Metadata-Version", "2.1"), ("Name", field("name")), ("Version", field("version")),
        ("Summary", field("description")), ("License", "MIT"), ("Requires-Python", field("requires-python"))))
    return {"WHEEL": wheel.encode(), "METADATA": metadata.encode()}


def build_wheel(wheel_directory, config_settings=None, metadata_directory=None):
    """Writes the wheel to a folder, and returns its name."""
    platform = re.sub(r"\W", "_", sysconfig.get_platform())
    tag = f"py3-none-{platform if library() else 'any'}"
    base = f"{field('name')}-{field('version')}"
    if not library():
        print("mencius: the package is built without a library. Run native/translate first, or name a library in "
              "MENCIUS_LIBRARY when you use the package.", file=sys.stderr)
    files = dict(contents())
    files.update({f"{base}.dist-info/{name}": text for name, text in about(tag).items()})
    record = "".join(f"{name},sha256={coded(text)},{len(text)}\n" for name, text in files.items())
    files[f"{base}.dist-info/RECORD"] = (record + f"{base}.dist-info/RECORD,,\n").encode()
    with zipfile.ZipFile(os.path.join(wheel_directory, f"{base}-{tag}.whl"), "w", zipfile.ZIP_DEFLATED) as wheel:
        for name, text in files.items():
            wheel.writestr(zipfile.ZipInfo(name, (1980, 1, 1, 0, 0, 0)), text)
    return f"{base}-{tag}.whl"


def coded(text):
    return base64.urlsafe_b64encode(hashlib.sha256(text).digest()).rstrip(b"=").decode()
