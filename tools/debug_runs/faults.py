"""What ends ./debug without an answer."""
from kept_files import Refused

__all__ = ["Broken", "Refused"]


class Broken(Exception):
    """A program that answered with something else than it promises."""
