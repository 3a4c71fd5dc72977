"""Writes a file whole or not at all: beside its place first, then put there in one step."""

import os
import stat
import sys
import tempfile

from frontdesk.reading.mistakes import of_the_file

STANDARD_OUTPUT = "-"
LIKE_FORMULAS = ("=", "+", "-", "@", "\t", "\r")  # what a spreadsheet takes for a formula at the front of a text


def cannot(path, error):
    """The mistake that a path cannot be written, in words."""
    return of_the_file("", "%s cannot be written: %s." % (path, reason(error)))


def reason(error):
    """What the system says, without its number and path."""
    return (error.strerror or str(error)).lower() if isinstance(error, OSError) else str(error)


def put(path, data):
    """Writes bytes, or text as UTF-8, to a path; `-` is standard output, and a device or pipe is written to as it stands."""
    put_all({path: data})


def put_all(contents):
    """Writes every one of these contents by path, or none where one cannot be: all are whole beside their places before the first is put there."""
    contents = {path: data.encode("utf-8", "surrogateescape") if isinstance(data, str) else data for path, data in contents.items()}
    whole, path = {}, ""
    try:
        for path in [path for path in contents if not is_stream(path)]:
            whole[path] = beside(path, contents[path])
        for path in [path for path in contents if is_stream(path)]:
            pour(path, contents[path])
        for path in list(whole):
            os.replace(whole[path], os.path.realpath(path))
            del whole[path]
    except BrokenPipeError:
        raise
    except OSError as error:
        raise cannot("standard output" if path == STANDARD_OUTPUT else path, error) from None
    finally:
        for left in whole.values():
            os.unlink(left)


def is_stream(path):
    return path == STANDARD_OUTPUT or os.path.exists(path) and not stat.S_ISREG(os.stat(path).st_mode)


def pour(path, data):
    if path == STANDARD_OUTPUT:
        sys.stdout.buffer.write(data)
        sys.stdout.buffer.flush()
    else:
        with open(path, "wb") as there:
            there.write(data)


def beside(path, data):
    """A new file beside the path (behind links) that has these bytes and may stand there."""
    final = os.path.realpath(path)
    handle, there = tempfile.mkstemp(prefix=".%s." % os.path.basename(final)[:100], dir=os.path.dirname(final))
    try:
        with open(handle, "wb") as file:
            file.write(data)
        os.chmod(there, mode_of(final))
    except BaseException:
        os.unlink(there)
        raise
    return there


def mode_of(path):
    """Who may read and write a file that is there, or one that is made anew."""
    try:
        return stat.S_IMODE(os.stat(path).st_mode)
    except FileNotFoundError:
        mask = os.umask(0)
        os.umask(mask)
        return 0o666 & ~mask
