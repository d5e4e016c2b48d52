#!/usr/bin/env python3
"""The subcommand of the Python package that has this name."""
from by_name import run

if __name__ == '__main__':
    run()
