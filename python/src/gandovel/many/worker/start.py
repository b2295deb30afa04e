"""What an engine starts for a list of tasks. Python keeps the compiled form of the worker, as of all that is imported.

To compile it each time would take a quarter of the time that a task takes to begin.
"""
import os
import sys

sys.path.append(os.path.dirname(os.path.dirname(os.path.abspath(__file__))))

from worker.lists import main  # noqa: E402

if __name__ == "__main__":
    sys.exit(main(sys.argv[1:]))
