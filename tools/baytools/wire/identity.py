"""Who asks, as the orIdent of a control says it."""
import argparse
import os
import pwd
import socket

LONGEST = 64  # octets of an orIdent


def clip_identity(name: str) -> str:
    """A name as far as an orIdent takes it."""
    return name.encode()[:LONGEST].decode(errors='ignore')


def identity_of(text: str) -> str:
    """A name that an orIdent can have, for an option."""
    if len(os.fsencode(text)) > LONGEST:
        raise argparse.ArgumentTypeError(f'{text[:20]}.. has more than {LONGEST} octets')
    return text


def own_name() -> str:
    """The user who runs this, and the machine."""
    try:
        user = pwd.getpwuid(os.getuid()).pw_name
    except KeyError:
        user = str(os.getuid())
    return clip_identity(f'{user}@{socket.gethostname()}')
