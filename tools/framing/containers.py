"""What frames are in: a file of frames one after another, or the datagrams of a recorded network."""
import io

from recording.unusable import Unusable, lacking

HOST = b"\x7f\0\0\1"  # the loopback, for datagrams that are written


class Counted:
    """A stream that is read once, which knows how many bytes were read and whether there are more."""

    def __init__(self, stream):
        self.stream, self.count, self.ahead = stream, 0, b""

    def read(self, count=-1):
        data = self.ahead[:count] if count >= 0 else self.ahead
        self.ahead = self.ahead[len(data):]
        if count < 0 or len(data) < count:
            data += self.stream.read() if count < 0 else self.stream.read(count - len(data))
        self.count += len(data)
        return data

    def has_more(self):
        self.ahead = self.ahead or self.stream.read(1)
        return bool(self.ahead)


class Frames:
    """A file of frames alone."""

    def streams(self, file):
        """Each stream of frames, with its time in microseconds, or None where it has none."""
        yield Counted(file), None

    def write(self, file, frames):
        for frame in frames:
            file.write(frame)


class Datagrams:
    """The UDP datagrams of a .pcap or .pcapng file, each with some frames. A datagram in fragments is passed over."""

    def __init__(self, port):
        self.port = port

    def streams(self, file):
        from dpkt import Error, pcap

        try:
            packets = pcap.UniversalReader(file)
        except (ValueError, Error) as error:
            raise Unusable(f"no .pcap file: {error}") from None
        for seconds, packet in packets:
            data = self.payload_of(packet, packets.datalink())
            if data is not None:
                yield Counted(io.BytesIO(data)), round(seconds * 1e6)

    def payload_of(self, packet, link):
        """What a packet carries of UDP to the port, if it is such a packet."""
        from dpkt import Error, ethernet, ip, ip6, pcap, sll, udp as protocol

        kinds = {pcap.DLT_EN10MB: ethernet.Ethernet, pcap.DLT_LINUX_SLL: sll.SLL, pcap.DLT_RAW: ip.IP, 12: ip.IP}
        try:
            found = kinds.get(link, ethernet.Ethernet)(packet)
            while not isinstance(found, (ip.IP, ip6.IP6)) and hasattr(found, "data") and not isinstance(found, bytes):
                found = found.data
            datagram = getattr(found, "data", None)
        except Error:
            return None
        is_ours = isinstance(datagram, protocol.UDP) and self.port in (None, datagram.dport)
        return datagram.data if is_ours else None

    def write(self, file, frames):
        from dpkt import ethernet, ip, pcap, udp as protocol

        out, port = pcap.Writer(file), self.port or 0
        for place, frame in enumerate(frames):
            datagram = protocol.UDP(sport=port, dport=port, ulen=8 + len(frame), data=frame)
            packet = ip.IP(src=HOST, dst=HOST, p=ip.IP_PROTO_UDP, data=datagram, len=28 + len(frame))
            out.writepkt(bytes(ethernet.Ethernet(type=ethernet.ETH_TYPE_IP, data=packet)), ts=place / 1e6)


def udp(port=None):
    """Frames in the datagrams of a recorded network, those to this port, or all."""
    try:
        import dpkt  # noqa: F401
    except ImportError:
        raise Unusable(lacking("dpkt", "python3-dpkt")) from None
    return Datagrams(port)
