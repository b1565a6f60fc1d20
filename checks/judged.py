"""How a check tells what it judges: a line for each case, and as its last line 'N passed, M failed'. A script that
imports this, by itself or by workspace.py, answers the single word --help with its doc string."""
import sys


def answer_help():
    """Ends the script with its doc string, if its command line is --help."""
    if sys.argv[1:] == ["--help"]:
        print(sys.modules["__main__"].__doc__.strip())
        sys.exit()


answer_help()


class Failed(Exception):
    """Why a check ends before it has judged all cases."""


def tell(cases):
    """Prints each case, with what is wrong with it if anything is. Returns the status to end with."""
    passed = failed = 0
    try:
        for what, why in cases:
            print(f"FAILED {what}: {why}" if why else f"ok {what}", flush=True)
            failed += bool(why)
            passed += not why
    except Failed as why:
        print(f"FAILED: {why}")
        failed += 1
    print(f"{passed} passed, {failed} failed")
    return int(failed > 0)
