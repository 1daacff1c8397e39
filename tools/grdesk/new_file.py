"""Files that are made anew in a folder, also beside files of others. The folder is opened once, and each name in it is
used by its descriptor. So nothing is written through a link, or into a file that somebody else has put there, and no
other folder takes its place meanwhile. A file gets its name once all of it is on the disk."""
import os
import shlex
import stat
from contextlib import contextmanager, suppress
from enum import Enum

from grdesk.error import Refused

# What ends the name of a file that is not whole yet.
BEGUN = ".new"

# The bits of a mode by which other accounts write.
WRITTEN_BY_OTHERS = stat.S_IWGRP | stat.S_IWOTH


class Readers(Enum):
    """Who may read what is made: the mode of a file, and that of a folder, whatever the umask."""

    OWNER = 0o600, 0o700
    ALL = 0o644, 0o755

    @property
    def of_file(self):
        return self.value[0]

    @property
    def of_folder(self):
        return self.value[1]


@contextmanager
def naming(path):
    """Gives an error of the system the name of this file, where it has none or one without its folder."""
    try:
        yield
    except OSError as error:
        error.filename = path
        raise


def write_all(descriptor, data):
    """Writes all of some bytes."""
    while data:
        data = data[os.write(descriptor, data) :]


def is_trusted(about):
    """Whether something that was looked at is this account's, or root's."""
    return about.st_uid in (0, os.geteuid())


def open_folder(path):
    """The descriptor of a folder. The system calls a link no directory, so the error says what it is."""
    # A path that ends in a slash would lead through a link.
    name = path.rstrip("/") or "/"
    try:
        return os.open(name, os.O_RDONLY | os.O_DIRECTORY | os.O_NOFOLLOW)
    except OSError as error:
        if os.path.islink(name):
            error.strerror = "it is a link, and no link is followed: name the folder itself"
        raise


class Folder:
    """A folder that is there, open by its descriptor until the end. The last part of its path must be no link, or there
    is an OSError. `readers` says who may read what is made in it."""

    def __init__(self, path, readers=Readers.OWNER):
        self.path = path
        self.readers = readers
        with naming(path):
            self.descriptor = open_folder(path)

    def __enter__(self):
        return self

    def __exit__(self, *_):
        os.close(self.descriptor)

    def about(self):
        return os.fstat(self.descriptor)

    def names(self):
        return os.listdir(self.descriptor)

    def path_of(self, name):
        return os.path.join(self.path, name)

    def open(self, name, flags):
        """The descriptor of a file. A new one has its mode from the beginning. No link is followed."""
        with naming(self.path_of(name)):
            return os.open(name, flags | os.O_NOFOLLOW, self.readers.of_file, dir_fd=self.descriptor)

    def make(self, name):
        """The descriptor of a new file, to be written. What has its name, as after a stop, is taken away first."""
        with suppress(FileNotFoundError):
            self.remove(name)
        made = self.open(name, os.O_WRONLY | os.O_CREAT | os.O_EXCL)
        with naming(self.path_of(name)):
            os.fchmod(made, self.readers.of_file)
        return made

    def put(self, name, data, at=None):
        """Writes a file at once and whole, in the place of one that was there. It has the date `at`, or that of now.
        When this returns, file and name are on the disk. Fails by an OSError with the path of the file."""
        begun = f"{name}{BEGUN}"
        with naming(self.path_of(name)):
            try:
                made = self.make(begun)
                try:
                    write_all(made, data)
                    if at is not None:
                        os.utime(made, (at, at))
                    os.fsync(made)
                finally:
                    os.close(made)
                os.rename(begun, name, src_dir_fd=self.descriptor, dst_dir_fd=self.descriptor)
            except BaseException:
                with suppress(OSError):
                    self.remove(begun)
                raise
        self.sync()

    def link(self, source, name):
        """Gives a file a name here too, unless something has that: FileExistsError."""
        with naming(self.path_of(name)):
            os.link(source, name, dst_dir_fd=self.descriptor, follow_symlinks=False)

    def remove(self, name):
        """Takes away a file, or a link and not where it leads."""
        with naming(self.path_of(name)):
            os.unlink(name, dir_fd=self.descriptor)

    def sync(self):
        """Brings the names in it to the disk."""
        with naming(self.path):
            os.fsync(self.descriptor)


def new_file(path):
    """A new file for its owner alone, to be written without a buffer. What has its name is taken away first."""
    folder, name = os.path.split(path)
    with Folder(folder or os.curdir) as place:
        return open(place.make(name), "wb", buffering=0)


def make_folder(path, readers):
    """Makes a folder, and those above it that are missing. Its path has no link."""
    if os.path.isdir(path):
        return
    make_folder(os.path.dirname(path), readers)
    os.mkdir(path, readers.of_folder)
    with Folder(path) as made:
        os.fchmod(made.descriptor, readers.of_folder)


def check_unshared(folder, outcome, why):
    """Refuses a folder that is another account's, or into which others can write. The message begins with
    `outcome` and ends with `why`."""
    about = folder.about()
    if not is_trusted(about):
        raise Refused(f"{outcome}: {folder.path} belongs to another account, {why}: name a folder of your own")
    if about.st_mode & WRITTEN_BY_OTHERS:
        what_to_do = f"chmod go-w {shlex.quote(folder.path)}"
        raise Refused(f"{outcome}: other accounts can write into {folder.path}, {why}: {what_to_do}")


def check_shared(folder):
    """Refuses a folder from which every account can take away what others have there."""
    mode = folder.about().st_mode
    if mode & stat.S_IWOTH and not mode & stat.S_ISVTX:
        why = f"so each of them could put another desk in the place of this one: chmod o-w {shlex.quote(folder.path)}"
        raise Refused(f"nothing was done: all accounts can write into {folder.path}, {why}")
