"""The steps of tests/all: what each runs, and what it needs that may be missing. A step carries the name of its file."""
import ast
import re
from dataclasses import dataclass

from .documents import content

PROGRAMS = "programs"  # `couchd` and `replay`, as `rt ci` leaves them
COMPILER = "cc"  # a C compiler
CI = "ci"  # the step that proves everything, and builds the programs
ABOUT_CI = (
    "Proves every crate, has the prover refuse the edits of each `must-fail/`, and runs the crates' tests and programs, as two "
    "compilers build them."
)


@dataclass(frozen=True)
class Step:
    """A step: its command, and what that needs."""

    command: str
    needs: tuple = ()

    @property
    def script(self):
        """The script that it runs, or the command itself."""
        return self.command.removeprefix("python3 ").split()[0]

    @property
    def name(self):
        if self.command == "rt ci":
            return CI
        return re.sub(r"^(?:tests/)?(?:test_)?|\.py$", "", self.script)

    @property
    def about(self):
        """What it does: the first sentence of the docstring of its script."""
        if self.name == CI:
            return ABOUT_CI
        docstring = " ".join(ast.get_docstring(ast.parse(content(self.script))).split())
        return re.match(r"(.*?\.)(?: |$)", docstring).group(1)


def python(script, *needs):
    return Step("python3 " + script, needs)


STEPS = [
    Step("rt ci"),
    Step("tests/edits/run --applies"),
    python("docs/make.py --check"),
    python("tests/test_crates.py"),
    python("tests/test_names.py"),
    python("tests/test_documents.py", PROGRAMS),
    python("tests/test_reference.py"),
    python("tests/transcripts/make.py --check"),
    python("tests/test_store_rows.py"),
    python("tests/test_arguments.py", PROGRAMS),
    python("tests/test_transcripts.py", PROGRAMS),
    python("tests/test_streams.py", PROGRAMS, COMPILER),
    python("tests/test_wire_rows.py"),
    python("tests/test_journal_rows.py"),
    python("tests/test_dumps.py", PROGRAMS),
    python("tests/test_epochs.py", PROGRAMS),
    python("tests/test_fuzz.py", PROGRAMS),
    python("tests/test_trees.py", PROGRAMS),
    python("tests/test_sockets.py", PROGRAMS),
    python("tests/test_holding.py", PROGRAMS),
    python("tests/test_waiting.py", PROGRAMS),
    python("tests/test_log.py", PROGRAMS),
    python("tests/test_journal.py", PROGRAMS),
    python("tests/test_durability.py", PROGRAMS, COMPILER),
    python("tests/test_peers.py", PROGRAMS),
    python("tests/test_replication.py", PROGRAMS, COMPILER),
    python("tests/test_live.py", PROGRAMS),
    python("tests/test_origins.py", PROGRAMS),
    python("tests/test_proxy.py", PROGRAMS),
    python("tests/test_browser.py", PROGRAMS),
    python("tests/test_memory.py", PROGRAMS, COMPILER),
    python("tests/test_allocations.py", PROGRAMS, COMPILER),
    python("tests/test_leaks.py", PROGRAMS),
    python("tests/test_bounds.py", PROGRAMS),
    python("tests/test_faults.py"),
]
