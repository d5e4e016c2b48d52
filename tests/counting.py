"""Runs the tests of a script: each of its functions test_*, in their order. One that breaks has failed, and the others go on."""
import sys
import traceback


class Skipped(Exception):
    """What a test needs is not on this machine; the words say what."""


def run(names: dict, left_out=()) -> int:
    """Tells `N passed, M failed` in a last line, and `, K skipped` where some were, and returns the status: 1 where one failed, else 0."""
    passed = failed = skipped = 0
    for name, test in list(names.items()):
        if not name.startswith('test_') or name in left_out:
            continue
        try:
            test()
            passed += 1
        except Skipped as why:
            skipped += 1
            print(f'{name}: skipped: {why}')
        except Exception:
            failed += 1
            print(f'{name}:')
            traceback.print_exc(file=sys.stdout)
    print(f'{passed} passed, {failed} failed' + (f', {skipped} skipped' if skipped else ''))
    return int(failed != 0)


def main(names: dict, needs_program, scratch) -> None:
    """Runs them as a script: with `--no-program` those that need the program are left out, other words print the script's page.
    The scratch folder goes at the end."""
    if sys.argv[1:] not in ([], ['--no-program']):
        sys.exit(names['__doc__'])
    status = run(names, needs_program if sys.argv[1:] else ())
    scratch.cleanup()
    sys.exit(status)
