"""Programs that heed the rights of files where their user is root."""
import ctypes

# By which who is root reads and writes what they have no rights to.
OVERRIDES = 1, 2  # CAP_DAC_OVERRIDE, CAP_DAC_READ_SEARCH
LOW_PORTS = 10  # CAP_NET_BIND_SERVICE
LEAVE = 24  # PR_CAPBSET_DROP


def heed_rights(c_library=ctypes.CDLL(None)):
    """Has the program that this process becomes heed the rights of files where its user is root."""
    for one in OVERRIDES:
        c_library.prctl(LEAVE, one, 0, 0, 0)


def give_up_ports(c_library=ctypes.CDLL(None)):
    """Has the program that this process becomes have no rights to the ports below 1024, where its user is root."""
    c_library.prctl(LEAVE, LOW_PORTS, 0, 0, 0)
