"""What observe.py and study.py share: how they draw, and how they end."""
import sys

COLOURS = ("tab:blue", "tab:orange", "tab:green", "tab:purple", "tab:brown", "tab:olive")
NO_PICTURE = "no picture: this Python has no matplotlib, which Debian's package python3-matplotlib brings"


def plotter():
    """The part of matplotlib that draws into files, or None where it is missing."""
    try:
        import matplotlib  # pylint: disable=import-outside-toplevel
    except ImportError:
        return None
    matplotlib.use("Agg")
    matplotlib.rcParams["svg.hashsalt"] = "ascend"
    from matplotlib import pyplot  # pylint: disable=import-outside-toplevel
    return pyplot


def end_with(main):
    """Ends with the status that `main` answers, and quietly where nobody reads what is printed."""
    try:
        sys.exit(main())
    except BrokenPipeError:
        sys.stderr.close()
