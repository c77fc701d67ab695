"""The counts of a tool's last line: 'N passed, M failed', with ', K skipped' if the machine lacks something."""
import sys

passed = failed = skipped = 0


def see(holds, name, told=""):
    """Counts one check, and says how it ended."""
    global passed, failed
    passed += bool(holds)
    failed += not holds
    print(f"ok: {name}" if holds else f"FAILED: {name}: {told}", flush=True)


def same(name, found, wanted):
    see(found == wanted, name, f"{found} in place of {wanted}")


def skip(name, lacks):
    global skipped
    skipped += 1
    print(f"skipped: {name}: {lacks}", flush=True)


def finish():
    print(f"{passed} passed, {failed} failed" + (f", {skipped} skipped" if skipped else ""))
    sys.exit(failed > 0)
