"""Frames that are fed to a stack at 10.0.0.1, and the capture file that holds them."""
import struct

OWN_IP = bytes([10, 0, 0, 1])
OWN_MAC = bytes([2, 0, 0, 0, 0, 1])
PEER_IP = bytes([10, 0, 0, 2])
PEER_MAC = bytes([2, 0, 0, 0, 0, 2])
# more fragments follow (RFC 791)
MORE = 0x2000


def arp_request(sender_ip, sender_mac):
    """An ARP request for the stack's address (RFC 826), 42 octets."""
    head = b"\xff" * 6 + sender_mac + b"\x08\x06"
    return head + b"\x00\x01\x08\x00\x06\x04\x00\x01" + sender_mac + sender_ip + bytes(6) + OWN_IP


def arp_requests(count):
    """Requests from as many senders in 10.0.0.0/8."""
    for number in range(count):
        yield arp_request(bytes([10]) + (number + 256).to_bytes(3, "big"), bytes([2, 1]) + number.to_bytes(4, "big"))


def checksum(octets):
    """The internet checksum (RFC 1071) of an even number of octets."""
    total = sum(struct.unpack(f">{len(octets) // 2}H", octets))
    while total >> 16:
        total = (total & 0xFFFF) + (total >> 16)
    return 0xFFFF - total


def echo_message(octets):
    """The message of an ICMP echo request (RFC 792), with so many octets of data."""
    data = bytes(place % 251 for place in range(octets))
    message = struct.pack(">BBHHH", 8, 0, 0, 0x1234, 1) + data
    return message[:2] + struct.pack(">H", checksum(message)) + message[4:]


def packet(data, identification, fragment=0, protocol=1):
    """A frame from the peer with a packet, of ICMP for protocol 1; `fragment` is the word of its flags and offset (RFC 791)."""
    head = struct.pack(">BBHHHBBH", 0x45, 0, 20 + len(data), identification, fragment, 64, protocol, 0) + PEER_IP + OWN_IP
    head = head[:10] + struct.pack(">H", checksum(head)) + head[12:]
    return OWN_MAC + PEER_MAC + b"\x08\x00" + head + data


def echo_requests(count, octets):
    """An ARP request of the peer, then echo requests; frames count the first too."""
    request = packet(echo_message(octets), 1)
    yield arp_request(PEER_IP, PEER_MAC)
    for _ in range(count - 1):
        yield request


def write_capture(path, frames):
    """A capture file of version 2.4, the lowest octet first."""
    with open(path, "wb") as out:
        out.write(struct.pack("<IHHiIII", 0xA1B2C3D4, 2, 4, 0, 0, 65535, 1))
        for frame in frames:
            out.write(struct.pack("<IIII", 0, 0, len(frame), len(frame)) + frame)
