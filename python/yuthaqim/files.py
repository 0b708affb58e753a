"""Files: reading with a cap, writing whole or not at all."""

from __future__ import annotations

import errno
import os
import stat
from contextlib import contextmanager
from typing import Callable, Collection, Iterator, Mapping, Sequence

from .faults import Fault, Faults, Place, Unreadable


class Missing(Exception):
    """A package that a file needs isn't installed."""

    def __init__(self, to: str, module: str, package: str):
        super().__init__(f"{to}, {module} is needed: apt-get install {package}")


def within(folder: str, *names: str) -> str:
    """The path of a file in a folder, as it is told."""
    return os.path.normpath(os.path.join(folder, *names))


def read(path: str, most: int) -> bytes:
    """The bytes of a file; more than `most` are not read."""
    if not stat.S_ISREG(os.stat(path).st_mode):
        raise Unreadable(Place(path), "this is no plain file")
    with open(path, "rb") as file:
        data = file.read(most + 1)
    if len(data) > most:
        raise Unreadable(Place(path), f"it has over {most:,} bytes")
    return data


def stands(path: str, data: bytes) -> bool:
    """Whether the file has these bytes already."""
    try:
        return read(path, len(data)) == data
    except (OSError, Unreadable):
        return False


def write(path: str, data: bytes, again: bool = True) -> None:
    """Puts the bytes in the place of what the file had: all of them, or, if the system fails, none. What has them already
    is left alone, unless it is to be written again."""
    if not again and stands(path, data):
        return
    made = os.path.join(os.path.dirname(path), f".{os.urandom(8).hex()}.new")
    try:
        _flushed({made: data})
        os.replace(made, path)
    except BaseException:
        if os.path.lexists(made):
            os.unlink(made)
        raise


_TOGETHER = 64  # so many files are open at a time


def _flushed(files: Mapping[str, bytes], folders: Sequence[str] = ()) -> None:
    """Writes new files, and flushes them to the disk with the folders that hold them."""
    paths = [*files, *folders]
    for at in range(0, len(paths), _TOGETHER):
        handles: dict[str, int] = {}
        try:
            for path in paths[at : at + _TOGETHER]:
                how = os.O_WRONLY | os.O_CREAT | os.O_EXCL if path in files else os.O_RDONLY | os.O_DIRECTORY
                handles[path] = os.open(path, how, 0o666)
                _written(path, handles[path], files.get(path, b""))
            _flush(handles)
        finally:
            for handle in handles.values():
                os.close(handle)


def _written(path: str, handle: int, data: bytes) -> None:
    left = memoryview(data)
    while left:
        try:
            left = left[os.write(handle, left) :]
        except OSError as error:
            raise OSError(error.errno, error.strerror, path) from None


def _flush(handles: Mapping[str, int]) -> None:
    """Flushes all side by side: the system writes them in one go, where one after the other each waits for the disk."""
    from threading import Thread

    failed: list[OSError] = []

    def flush(path: str, handle: int) -> None:
        try:
            os.fsync(handle)
        except OSError as error:
            failed.append(OSError(error.errno, error.strerror, error.filename or path))

    first, *others = handles.items()
    threads = []
    for other in others:
        thread = Thread(target=flush, args=other)
        try:
            thread.start()
            threads.append(thread)
        except RuntimeError:  # the system gives no more of them
            flush(*other)
    flush(*first)
    for thread in threads:
        thread.join()
    if failed:
        raise failed[0]


# Several files at once. What is made stands in `.making` first; when all of it is written and flushed, that is renamed to
# `.made`, and what stands there goes to its place. A command that is killed before the renaming has changed nothing; after
# it, the next command that comes by finishes what was begun.

_MAKING, _MADE = ".making", ".made"
_FILES, _WHOLE, _GONE, _OLD = "files", "whole", "gone", "old"


@contextmanager
def locked(folder: str) -> Iterator[None]:
    """Others who would write in the folder wait until this is done. What was begun in it is finished first."""
    import fcntl

    if not os.path.isdir(folder):
        raise Faults([Fault(Place(folder), "there is no such folder")])
    handle = os.open(folder, os.O_RDONLY | os.O_DIRECTORY)
    try:
        fcntl.flock(handle, fcntl.LOCK_EX)
        _finish(folder)
        yield
    finally:
        os.close(handle)


def settle(folder: str) -> None:
    """Finishes what a command that was killed has begun, if there is any."""
    if os.path.lexists(os.path.join(folder, _MADE)):
        with locked(folder):
            pass


def put(
    folder: str,
    files: Mapping[str, bytes],
    whole: Collection[str] = (),
    gone: Collection[str] = (),
    judge: Callable[[str, bytes], bool] = lambda path, data: True,
    again: bool = True,
) -> None:
    """Puts files in their places in a folder and removes others, all of it or nothing. Of `whole` are folders that hold
    afterwards what is here for them, and nothing else. Each file is read again and judged before any is in its place. Who
    puts has the folder locked. Where all of it is so already it is left alone, unless it is to be put again."""
    if not again and all_stand(folder, files, whole, gone):
        return
    making = os.path.join(folder, _MAKING)
    _remove(making)  # it is one of a command that was killed
    made = {path: os.path.join(making, _WHOLE if path.split("/")[0] in whole else _FILES, path) for path in files}
    there = [path for path in gone if os.path.lexists(os.path.join(folder, path))]
    marks = {os.path.join(making, _GONE, path): b"" for path in there}
    os.mkdir(making)
    try:
        folders = {os.path.dirname(path) for path in (*made.values(), *marks)}
        for path in sorted({*folders, *(os.path.join(making, _WHOLE, name) for name in whole)}):
            os.makedirs(path, exist_ok=True)
        all_folders = [inner for inner, _, _ in os.walk(making)]
        _flushed({**{made[path]: data for path, data in files.items()}, **marks}, all_folders)
        for path, data in files.items():
            if not judge(path, read(made[path], len(data))):
                raise OSError(errno.EIO, "it is read back otherwise than it was written", within(folder, path))
        for path in (*files, *gone, *whole):
            if path in whole or path.split("/")[0] not in whole:
                _has_room(folder, path, path in whole)
        os.rename(making, os.path.join(folder, _MADE))
    except BaseException:
        _remove(making)
        raise
    _finish(folder)


def all_stand(
    folder: str, files: Mapping[str, bytes], whole: Collection[str] = (), gone: Collection[str] = ()
) -> bool:
    """Whether the folder has these files already, and nothing that is to go."""
    kept = {os.path.join(name, path) for name in whole for path in _paths(os.path.join(folder, name))}
    return (
        all(os.path.isdir(os.path.join(folder, name)) for name in whole)
        and kept <= files.keys()
        and not any(os.path.lexists(os.path.join(folder, path)) for path in gone)
        and all(stands(os.path.join(folder, path), data) for path, data in files.items())
    )


def _finish(folder: str) -> None:
    """Brings what stands in `.made` to its place: each step once, also where some are done already."""
    made = os.path.join(folder, _MADE)
    if not os.path.isdir(made):
        return
    _flushed({}, [folder])
    for path in _paths(os.path.join(made, _GONE)):
        if os.path.lexists(os.path.join(folder, path)):
            os.unlink(os.path.join(folder, path))
    for path in _paths(os.path.join(made, _FILES)):
        os.makedirs(os.path.dirname(os.path.join(folder, path)) or ".", exist_ok=True)
        os.replace(os.path.join(made, _FILES, path), os.path.join(folder, path))
    whole = os.path.join(made, _WHOLE)
    for name in sorted(os.listdir(whole)) if os.path.isdir(whole) else ():
        target = os.path.join(folder, name)
        if os.path.lexists(target):
            _remove(os.path.join(made, _OLD, name))
            os.makedirs(os.path.join(made, _OLD), exist_ok=True)
            os.rename(target, os.path.join(made, _OLD, name))
        os.rename(os.path.join(whole, name), target)
    _flushed({}, [folder])
    os.rename(made, os.path.join(folder, _MAKING))  # all is in its place: what is left is removed, now or later
    _remove(os.path.join(folder, _MAKING))


def _remove(folder: str) -> None:
    """Removes a folder with all that it holds; what can't be removed is left."""
    if os.path.islink(folder):
        return
    try:
        for inner, names, files in os.walk(folder, topdown=False):
            for name in files:
                os.unlink(os.path.join(inner, name))
            for name in names:
                path = os.path.join(inner, name)
                os.unlink(path) if os.path.islink(path) else os.rmdir(path)
        if os.path.lexists(folder):
            os.rmdir(folder)
    except OSError:
        pass


def _paths(folder: str) -> list[str]:
    return sorted(
        os.path.relpath(os.path.join(inner, file), folder) for inner, _, files in os.walk(folder) for file in files
    )


def _has_room(folder: str, path: str, whole: bool) -> None:
    """Fails, before anything is in its place, where the file or folder can't come to it."""
    target = os.path.join(folder, path)
    parent = os.path.dirname(target)
    wrong = 0
    if os.path.lexists(target) and whole != os.path.isdir(target):
        wrong = errno.ENOTDIR if whole else errno.EISDIR
    elif os.path.isdir(parent) and not os.access(parent or ".", os.W_OK | os.X_OK):
        wrong = errno.EACCES
    elif os.path.isdir(parent) and os.stat(parent).st_dev != os.stat(folder).st_dev:
        wrong = errno.EXDEV
    if wrong:
        raise OSError(wrong, os.strerror(wrong), os.path.normpath(target))


def _umask() -> int:
    mask = os.umask(0o022)
    os.umask(mask)
    return mask


def copy_folder(source: str, path: str) -> None:
    """Makes a folder with what another has, whole or not at all."""
    import shutil
    import tempfile

    if os.path.lexists(path):
        raise Faults([Fault(Place(path), "it is there already")])
    room = tempfile.mkdtemp(prefix=".", suffix=".new", dir=os.path.dirname(os.path.normpath(path)) or ".")
    try:
        shutil.copytree(source, room, dirs_exist_ok=True, copy_function=shutil.copyfile)
        os.chmod(room, 0o777 & ~_umask())
        os.rename(room, path)
    except BaseException:
        shutil.rmtree(room)
        raise
