"""irs-book by the call for one trade, `irs_run`: each trade is a chunk of its own. It takes the same words."""
from __future__ import annotations

import sys
from unittest import mock

from books import by_one_call_each

from irs import command, many

if __name__ == "__main__":
    with mock.patch.object(many, "run_each", by_one_call_each):
        sys.exit(command.main([*sys.argv[1:], "--chunk", "1"]))
