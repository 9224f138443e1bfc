"""A network of its own for a process and what it starts: only a loopback device, whose ports nobody else takes, and on which nobody else
sends. Linux gives one to root."""
import ctypes
import fcntl
import os
import socket
import struct

# of sched.h and net/if.h
CLONE_NEWNET = 0x40000000
IFF_UP = 1
# of linux/sockios.h
SIOCGIFFLAGS, SIOCSIFFLAGS = 0x8913, 0x8914
# struct ifreq with the flags of a device: its name, the flags, and what is left of the union
REQUEST = "16sH22x"


def called(name: str, *words: int) -> None:
    """Calls a function of the C library, which returns 0 unless it fails."""
    if getattr(ctypes.CDLL(None, use_errno=True), name)(*words):
        raise OSError(ctypes.get_errno(), os.strerror(ctypes.get_errno()))


def bring_up(device: str) -> None:
    """Brings a device up in the network of this process. Linux gives the loopback device its addresses then."""
    with socket.socket(socket.AF_INET, socket.SOCK_DGRAM) as asks:
        flags = struct.unpack(REQUEST, fcntl.ioctl(asks, SIOCGIFFLAGS, struct.pack(REQUEST, device.encode(), 0)))[1]
        fcntl.ioctl(asks, SIOCSIFFLAGS, struct.pack(REQUEST, device.encode(), flags | IFF_UP))


def separate() -> str:
    """Gives this process, which has one thread, a network of its own. If the system refuses, it stays in that of the machine, and why is
    returned."""
    try:
        machine = os.open("/proc/self/ns/net", os.O_RDONLY | os.O_CLOEXEC)
    except OSError as error:
        return f"there are no networks for single processes: {error}"
    try:
        called("unshare", CLONE_NEWNET)
        try:
            bring_up("lo")
            with socket.socket(socket.AF_INET, socket.SOCK_DGRAM) as tries:
                tries.bind(("127.0.0.1", 0))
        except OSError:
            called("setns", machine, CLONE_NEWNET)
            raise
    except (OSError, AttributeError) as error:
        return f"a network for a single process is refused: {error}"
    finally:
        os.close(machine)
    return ""
