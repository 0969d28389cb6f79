"""How a task waits for a thread: if the task is cancelled, it continues at once and the thread ends by itself."""
import inspect
from typing import Dict

import trio

# The argument of `trio.to_thread.run_sync` that says so. trio 0.23 renamed it.
_IS_NEW = "abandon_on_cancel" in inspect.signature(trio.to_thread.run_sync).parameters
ABANDON: Dict[str, bool] = {"abandon_on_cancel" if _IS_NEW else "cancellable": True}
