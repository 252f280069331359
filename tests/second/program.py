"""The program canon, asked by its standard input."""
import os
import tempfile

ACCEPTED, AT_FAULT = 0, 1


class Program:
    """A program by its path; each text is one run of it, with files for its three streams."""

    def __init__(self, path):
        self.path = os.path.abspath(path)
        self.files = [tempfile.TemporaryFile(buffering=0) for _ in range(3)]

    def ask(self, text, *arguments):
        """The status of a run (minus the signal that ended it), its output, and the line that it says of a fault."""
        for file in self.files:
            file.seek(0)
            file.truncate()
        self.files[0].write(text.encode())
        self.files[0].seek(0)
        actions = [(os.POSIX_SPAWN_DUP2, file.fileno(), stream) for stream, file in enumerate(self.files)]
        process = os.posix_spawn(self.path, [self.path, *arguments], os.environ, file_actions=actions)
        status = os.waitstatus_to_exitcode(os.waitpid(process, 0)[1])
        return status, self.content(1), self.content(2)

    def content(self, stream):
        self.files[stream].seek(0)
        return self.files[stream].read().decode(errors='replace')
