"""A first program against the installed package: checks the first response of a report under the key
that stands beside it, and prints the window of the time.

    PYTHONPATH=PREFIX/share/trawlbeacon/python python3 first.py malfeasance-report.json
"""

import sys

import trawlbeacon


def main() -> int:
    if len(sys.argv) != 2:
        print("usage: first.py REPORT", file=sys.stderr)
        return 2
    try:
        with open(sys.argv[1], "rb") as file:
            record = trawlbeacon.read_report(file.read())[0]
        window = trawlbeacon.check_signed(record.key, record.request, record.response)
    except (OSError, trawlbeacon.Refused) as why:
        print(f"first: {why}", file=sys.stderr)
        return 1
    print(f"the time is from {window.low} to {window.high}", flush=True)
    return 0


if __name__ == "__main__":
    sys.exit(main())
