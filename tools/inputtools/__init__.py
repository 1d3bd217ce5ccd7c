"""What the tools of this folder share: formats of captures and descriptions, and how a record is written."""

# (the module `signal` imports others, and who stops a tool meanwhile would see a traceback)
import _signal  # type: ignore

# Who stops a tool while it starts sees no traceback of it. (Where the signal is ignored it stays so.)
if _signal.getsignal(_signal.SIGINT) is _signal.default_int_handler:
    _signal.signal(_signal.SIGINT, _signal.SIG_DFL)
