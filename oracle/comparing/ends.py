"""One clear line and exit 2 on bad input, the same for every script."""
import argparse
import os
import sys


def fail(why):
    print(f"{os.path.basename(sys.argv[0])}: {why}", file=sys.stderr)
    sys.exit(2)


class Arguments(argparse.ArgumentParser):
    def error(self, message):
        fail(message)
