"""Outputs that get their names only when they are complete.

An output is made in a folder of its own, beside it, which only its owner can enter. A run holds a lock on that folder,
which the system takes away when the run ends in any way, so the next one can tell a folder that is in use from one that
a killed run has left.
"""

import errno
import fcntl
import os
import shutil
import stat
from types import TracebackType
from typing import List, Optional, Sequence, Tuple, Type

from kijorafe import interrupts
from kijorafe.messages import Fault, say
from kijorafe.shown import file_name

LONGEST_NAME = 255
TRIES = 100


class Output:
    """An output that is being made: `path` is where to make it, and `commit` gives it its name.

    Others than its owner may read it as the process's mask lets them, unless it is private.
    """

    def __init__(self, name: str, is_private: bool = False) -> None:
        check_output(name)
        self.name = name
        self._mode = 0o600 if is_private else 0o666
        folder, base = os.path.split(name)
        self.folder = os.path.join(folder or ".", _folder_name(base))
        self.path = self.beside("out")
        self._lock = -1

    def beside(self, name: str) -> str:
        """The path of another file in the output's folder. It is removed with the folder."""
        return os.path.join(self.folder, name)

    @staticmethod
    def remove(path: str) -> None:
        """Removes such a file before the folder is."""
        os.unlink(path)

    def __enter__(self) -> "Output":
        try:
            self._lock, is_new = _taken(self.folder)
            if not is_new:
                say(f"{file_name(self.folder)} is of a run that was killed, and is emptied")
                _empty(self.folder)
        except BlockingIOError as fault:
            raise Fault(4, f"another run is making {file_name(self.name)}") from fault
        except OSError as fault:
            self._leave()
            raise self.failed(fault) from fault
        except BaseException:
            self._leave()
            raise
        return self

    def __exit__(
        self,
        kind: Optional[Type[BaseException]],
        value: Optional[BaseException],
        trace: Optional[TracebackType],
    ) -> None:
        self._leave()
        if isinstance(value, interrupts.Stopped):
            say(f"stopped; {file_name(self.name)} isn't written")

    def _leave(self) -> None:
        if self._lock < 0:
            return
        interrupts.ignore()
        reason: Optional[str] = "it isn't empty"
        for _ in range(TRIES):
            try:
                _empty(self.folder)
                os.rmdir(self.folder)
                reason = None
                break
            except FileNotFoundError:
                # A program that is about to end may make or remove a file meanwhile.
                reason = None if not os.path.lexists(self.folder) else reason
            except OSError as fault:
                reason = fault.strerror
        if reason:
            say(f"{file_name(self.folder)} can't be removed: {reason}")
        os.close(self._lock)
        self._lock = -1

    def commit(self) -> None:
        """Gives the output its name, unless something has that name by now. Signals can't stop this any more."""
        try:
            mask = os.umask(0)
            os.umask(mask)
            with open(self.path, "rb") as file:
                os.fchmod(file.fileno(), self._mode & ~mask)
                os.fsync(file.fileno())
            interrupts.ignore()
            _name(self.path, self.name)
        except FileExistsError as fault:
            raise Fault(
                4, f"somebody else has made {file_name(self.name)} meanwhile, which is left as it is"
            ) from fault
        except OSError as fault:
            raise self.failed(fault) from fault

    def failed(self, fault: OSError) -> Fault:
        """What to say of a fault of the output's disk."""
        return Fault(4, f"writing {file_name(self.name)} failed: {fault.strerror}{free_bytes(self.name)}")


def commit_all(outputs: Sequence[Output]) -> None:
    """Gives all outputs their names, one after another; if one fails, those before it lose theirs."""
    named: List[Output] = []
    try:
        for output in outputs:
            output.commit()
            named.append(output)
    except BaseException:
        for output in named:
            os.unlink(output.name)
        raise


def check_output(name: str) -> None:
    """Raises a fault unless an output of this name can be made."""
    if os.path.lexists(name):
        raise Fault(4, f"{file_name(name)} exists already and is left as it is; remove it, or give another name")
    folder = os.path.dirname(name) or "."
    if not os.path.isdir(folder):
        raise Fault(4, f"the folder {file_name(folder)} doesn't exist")
    if not os.access(folder, os.W_OK | os.X_OK):
        raise Fault(4, f"there is no permission to write to the folder {file_name(folder)}")


def free_bytes(name: str) -> str:
    """The free bytes on the disk of a file, to be added to a message."""
    try:
        disk = os.statvfs(os.path.dirname(name) or ".")
    except OSError:
        return ""
    return f"; {disk.f_bavail * disk.f_frsize} bytes are free in its folder"


def is_utf8(name: str) -> bool:
    """Whether the program takes the name."""
    return not any("\ud800" <= character <= "\udfff" for character in name)


def _folder_name(base: str) -> str:
    name = f".{base}.part"
    if len(os.fsencode(name)) <= LONGEST_NAME and is_utf8(name):
        return name
    from hashlib import sha256

    return f".{sha256(os.fsencode(base)).hexdigest()}.part"


def _taken(folder: str) -> Tuple[int, bool]:
    """Makes the folder if it isn't there, and locks it: the descriptor that is the lock, and whether it is new."""
    while True:
        try:
            os.mkdir(folder, 0o700)
            is_new = True
        except FileExistsError:
            is_new = False
        lock = os.open(folder, os.O_RDONLY | os.O_DIRECTORY | os.O_NOFOLLOW)
        try:
            if _locked(lock, folder, is_new):
                return lock, is_new
        except BaseException:
            os.close(lock)
            raise
        # Another run has removed the folder between the two calls.
        os.close(lock)


def _locked(lock: int, folder: str, is_new: bool) -> bool:
    """Locks the folder; false if it isn't there any more. Another file system may have no locks for folders."""
    state = os.fstat(lock)
    if not is_new and (state.st_uid != os.geteuid() or stat.S_IMODE(state.st_mode) & 0o077):
        raise OSError(errno.EPERM, f"{file_name(folder)} is there, and isn't a folder that only you can enter")
    try:
        fcntl.flock(lock, fcntl.LOCK_EX | fcntl.LOCK_NB)
    except BlockingIOError:
        raise
    except OSError:
        if not is_new:
            raise
    try:
        return os.path.samestat(state, os.lstat(folder))
    except FileNotFoundError:
        return False


def _empty(folder: str) -> None:
    for entry in os.scandir(folder):
        if entry.is_dir(follow_symlinks=False):
            shutil.rmtree(entry.path)
        else:
            os.unlink(entry.path)


def _name(path: str, name: str) -> None:
    """Gives the file a second name, which nothing has. On a disk without links it is moved there."""
    try:
        os.link(path, name)
    except OSError as fault:
        if fault.errno not in (errno.EPERM, errno.EOPNOTSUPP, errno.ENOSYS, errno.EMLINK):
            raise
        _move(path, name)


def _move(path: str, name: str) -> None:
    """Moves a file to a name that nothing has."""
    import ctypes

    here, no_replace = -100, 1
    library = ctypes.CDLL(None, use_errno=True)
    if library.renameat2(here, os.fsencode(path), here, os.fsencode(name), no_replace) != 0:
        number = ctypes.get_errno()
        raise OSError(number, os.strerror(number), name)
