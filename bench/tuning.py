"""Programs are run with the allocator tuned as the launcher tunes it, unless GLIBC_TUNABLES says otherwise."""
import os
import re

TOP = os.path.dirname(os.path.dirname(os.path.abspath(__file__)))


def tuning():
    """What the launcher asks of the allocator."""
    with open(f"{TOP}/hemshale", encoding="utf-8") as launcher:
        return re.search(r"^tuning=(\S+)$", launcher.read(), re.MULTILINE)[1]


os.environ.setdefault("GLIBC_TUNABLES", tuning())
