"""Packets of captures, pcap or pcapng, as libpcap reads them."""

import ctypes

from bpfdb.texts import Refused

# What libpcap is called: by Debian, and by others.
NAMES = ('libpcap.so.0.8', 'libpcap.so.1')
# How many bytes its texts of errors have; and what its function for the next packet answers where there is one, and where none is left.
ERROR_SIZE, TAKEN, ENDED = 256, 1, -2


class Header(ctypes.Structure):
    """What stands before a packet: its time, how many of its bytes were captured, and how many it had."""

    _fields_ = [('seconds', ctypes.c_long), ('microseconds', ctypes.c_long), ('captured', ctypes.c_uint32), ('length', ctypes.c_uint32)]


def library():
    """libpcap, with the shapes of its functions."""
    for name in NAMES:
        try:
            pcap = ctypes.CDLL(name)
        except OSError:
            continue
        pcap.pcap_open_offline.restype = ctypes.c_void_p
        pcap.pcap_open_offline.argtypes = [ctypes.c_char_p, ctypes.c_char_p]
        pcap.pcap_next_ex.argtypes = [ctypes.c_void_p, ctypes.POINTER(ctypes.POINTER(Header)), ctypes.POINTER(ctypes.c_void_p)]
        pcap.pcap_geterr.restype = ctypes.c_char_p
        pcap.pcap_geterr.argtypes = pcap.pcap_datalink.argtypes = pcap.pcap_close.argtypes = [ctypes.c_void_p]
        pcap.pcap_datalink_val_to_description.restype = ctypes.c_char_p
        return pcap
    raise Refused('there is no libpcap, which reads captures: it is in the package libpcap0.8 of Debian')


def packet_of(file, wanted):
    """The packet of this number, from 1 on, of an open file: its bytes, how many it had when it was captured, and what it begins with."""
    pcap, fault = library(), ctypes.create_string_buffer(ERROR_SIZE)
    capture = pcap.pcap_open_offline(b'/dev/fd/%d' % file.fileno(), fault)
    if not capture:
        raise Refused(f'no capture: {shown(fault.value)}')
    try:
        header, content = ctypes.POINTER(Header)(), ctypes.c_void_p()
        for number in range(1, wanted + 1):
            taken = pcap.pcap_next_ex(capture, ctypes.byref(header), ctypes.byref(content))
            if taken == ENDED:
                raise Refused(f'there is no packet {wanted}: the capture has {number - 1}')
            if taken != TAKEN:
                raise Refused(f'packet {number}: {shown(pcap.pcap_geterr(capture))}')
        size, link = header.contents.captured, pcap.pcap_datalink(capture)
        link = pcap.pcap_datalink_val_to_description(link) or b'link type %d' % link
        return ctypes.string_at(content, size) if size else b'', header.contents.length, shown(link)
    finally:
        pcap.pcap_close(capture)


def shown(text):
    return text.decode(errors='surrogateescape')
