"""Why a join ends without a report, and why a task or a worker fails."""
from __future__ import annotations


class JoinFault(Exception):
    """Ends a join with one line on standard error."""

    status = 1

    @property
    def line(self) -> str:
        return f"rjoin-cluster: {self}"


class ProgramFault(JoinFault):
    """A fault that rjoin itself would tell, in its words and with its status."""

    def __init__(self, text: str, status: int = 1) -> None:
        super().__init__(text)
        self.status = status

    @property
    def line(self) -> str:
        return str(self)


class RunFailed(Exception):
    """A run of rjoin that ended for a cause that may be gone at another try, such as being out of
    memory."""


class Unfit(Exception):
    """What a worker lacks for a join."""


def one_line(cause: BaseException) -> str:
    return " ".join(str(cause).split())
