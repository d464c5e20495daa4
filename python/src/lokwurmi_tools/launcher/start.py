"""Starts a step of the launcher for the script `lokwurmi`: STEP WORD.., where STEP is a name in `steps.STEPS`."""
import os
import sys


def start() -> int:
    if sys.version_info < (3, 11):
        # a hint by the script has to do where only words are lacking
        if sys.argv[1] != "tell":
            print(
                f"lokwurmi: {sys.executable} is {sys.version.split()[0]}, and Python 3.11 or later is needed",
                file=sys.stderr,
            )
        return 70
    packages = os.path.dirname(os.path.dirname(os.path.dirname(os.path.abspath(__file__))))
    sys.path.insert(0, packages)
    from lokwurmi_tools.launcher.steps import main
    from lokwurmi_tools.shared.streams import open_streams

    open_streams()
    status = main(sys.argv[1:])
    try:
        sys.stdout.flush()
    except OSError:
        # nothing is left for the end of the process to write
        os.dup2(os.open(os.devnull, os.O_WRONLY), 1)
        return 20
    return status


if __name__ == "__main__":
    sys.exit(start())
