"""Exit statuses of the commands of this package."""

from enum import IntEnum


class Exit(IntEnum):
    """How a process ended. 1 is Python's own, for a fault in this program."""

    STOPPED = 0
    USAGE = 2
    CONFIG = 3
    LOG_IN_USE = 4
    LOG_REFUSED = 5
    DISK = 6
    CORE = 7
    NETWORK = 8
    CHECK_FAILED = 9
    NOT_FINAL = 10


class ServiceError(Exception):
    """A cause to end a process, with its exit status."""

    def __init__(self, status: Exit, text: str) -> None:
        super().__init__(status, text)      # both, so that it goes from process to process
        self.status, self.text = status, text

    def __str__(self) -> str:
        return self.text
