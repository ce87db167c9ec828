"""What a program does whose output nobody reads any more."""

import signal


def end_with_reader():
    """Ends the program by the signal of a broken pipe, as programs in C do, without a traceback."""
    if hasattr(signal, "SIGPIPE"):
        signal.signal(signal.SIGPIPE, signal.SIG_DFL)
