"""What ends a command: `__main__` writes the line, and ends with the status."""
from lokwurmi.errors import LokwurmiError


class Fault(LokwurmiError):
    """Something is wrong, and the command can't go on."""

    def __init__(self, says: str, status: int = 1):
        super().__init__(says)
        self.status = status


class Told(Fault):
    """The same where all has been said on standard error already."""

    def __init__(self, status: int):
        super().__init__("", status)


class OwnFault(Fault):
    """What a command worked out isn't what the proved program says: an error of the command itself."""

    def __init__(self, says: str):
        super().__init__(f"an error of this command: {says}")
