"""Builds the wheel of this package by Python's own library, so that pip needs no other package and no network (PEP 517).

    pip install --no-index bindings/python
"""
import base64
import hashlib
import os
import re
import zipfile

HERE = os.path.dirname(os.path.abspath(__file__))
FILES = ["pwcheck/__init__.py", "pwcheck/py.typed"]
# The earliest time that a zip file has: two builds of the same files give the same bytes.
TIME = (1980, 1, 1, 0, 0, 0)


def _read(name):
    with open(os.path.join(HERE, name), "rb") as file:
        return file.read()


def _project():
    """What pyproject.toml says of the project: a key and a string a line."""
    text = _read("pyproject.toml").decode()
    section = text.partition("[project]\n")[2].partition("\n[")[0]
    values = dict(re.findall(r'^([\w-]+) = "(.*)"$', section, re.M))
    values["classifiers"] = re.findall(r'"([^"]*)"', section.partition("classifiers = [")[2].partition("]")[0])
    return values


def _metadata(project):
    lines = ["Metadata-Version: 2.1", "Name: " + project["name"], "Version: " + project["version"], "Summary: " + project["description"],
             "License: MIT OR Apache-2.0", "Requires-Python: " + project["requires-python"]]
    return "\n".join(lines + ["Classifier: " + line for line in project["classifiers"]]) + "\n"


def build_wheel(wheel_directory, config_settings=None, metadata_directory=None):
    """Writes the wheel, and gives its name."""
    project = _project()
    front = f"{project['name']}-{project['version']}"
    about = front + ".dist-info/"
    files = {name: _read(name) for name in FILES}
    files[about + "METADATA"] = _metadata(project).encode()
    files[about + "WHEEL"] = b"Wheel-Version: 1.0\nGenerator: pwcheck\nRoot-Is-Purelib: true\nTag: py3-none-any\n"
    record = ""
    for name, data in files.items():
        digest = base64.urlsafe_b64encode(hashlib.sha256(data).digest()).rstrip(b"=").decode()
        record += f"{name},sha256={digest},{len(data)}\n"
    files[about + "RECORD"] = f"{record}{about}RECORD,,\n".encode()
    wheel = front + "-py3-none-any.whl"
    with zipfile.ZipFile(os.path.join(wheel_directory, wheel), "w", zipfile.ZIP_DEFLATED) as out:
        for name, data in files.items():
            entry = zipfile.ZipInfo(name, TIME)
            entry.external_attr = 0o644 << 16
            entry.compress_type = zipfile.ZIP_DEFLATED
            out.writestr(entry, data)
    return wheel
