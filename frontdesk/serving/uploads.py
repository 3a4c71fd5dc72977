"""What a browser sends with a form: the multipart body's fields and files, in memory alone."""

import re
from typing import NamedTuple

MOST_PARTS = 20
BOUNDARY = re.compile(r'multipart/form-data\s*;.*?boundary="?([^\s";,]{1,70})"?', re.IGNORECASE)
FIELD = re.compile(rb'\bname="([^"]*)"')
FILE = re.compile(rb'\bfilename="([^"]*)"')


class Upload(NamedTuple):
    fields: dict  # text by name
    files: list  # (name without its folder, bytes) of the files that were chosen


class NoForm(Exception):
    """The body is no form as browsers send it."""


def parsed(kind, body):
    """The upload of a body with this Content-Type."""
    boundary = BOUNDARY.match(kind or "")
    if not boundary:
        raise NoForm("a form with a file is asked for")
    mark = b"--" + boundary.group(1).encode("latin-1")
    parts = (b"\r\n" + body).split(b"\r\n" + mark)
    if len(parts) < 2 or len(parts) > MOST_PARTS or not parts[-1].startswith(b"--"):
        raise NoForm("the form was cut off on its way")
    upload = Upload({}, [])
    for part in parts[1:-1]:
        head, between, content = part.partition(b"\r\n\r\n")
        field, file = FIELD.search(re.sub(FILE, b"", head)), FILE.search(head)
        if not between or not field:
            raise NoForm("a part of the form has no name")
        if not file:
            upload.fields[decoded(field.group(1))] = decoded(content)
        elif file.group(1) or content:
            upload.files.append((bare(decoded(file.group(1))), content))
    return upload


def decoded(text):
    return text.decode("utf-8", "replace")


def bare(name):
    """A file's name without the folder that some browsers send, with the three signs that they escape."""
    for escape, sign in (("%22", '"'), ("%0D", " "), ("%0A", " ")):
        name = name.replace(escape, sign)
    return re.split(r"[/\\]", name)[-1].strip()[:200] or "upload"
