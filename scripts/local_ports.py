"""A port of this machine for a program that a script runs."""
import contextlib
import random
import socket

# stands for any port that the system finds free
ANY = 0


def free_port(among=(ANY,)):
    """A port on which nobody listens now, at random from these."""
    for port in random.sample(among, len(among)):
        with contextlib.suppress(OSError), socket.socket() as listener:
            listener.bind(('127.0.0.1', port))
            return listener.getsockname()[1]
    raise OSError('no port is free')
