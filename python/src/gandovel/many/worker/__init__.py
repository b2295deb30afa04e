"""What runs tasks, on any node that has Python 3.8: by modules of Python alone, few of them, so that it begins fast."""
