"""What a client writes to a stream, and what the server answers."""
import json

OPENING = b'CONNECT {"headers":true,"verbose":false}\r\nSUB _I.1 1\r\n'
REPLY = b"_I.1"
PAYLOAD = 100 * b"x"


def call(name, body=b"", reply=b"", stream=b"ORDERS"):
    return b"PUB $JS.API.STREAM.%s.%s %s %d\r\n%s\r\n" % (name, stream, reply, len(body), body)


def creation(stream=b"ORDERS", **config):
    """The call that makes a stream. It has no reply."""
    return call(b"CREATE", json.dumps({"subjects": ["orders.*"], **config}).encode(), stream=stream)


def publish(subject=b"orders.a", reply=b""):
    return b"PUB %s %s %d\r\n%s\r\n" % (subject, reply, len(PAYLOAD), PAYLOAD)


def publish_with_id(number, reply=b""):
    """A publish whose message id is this number, in eight digits."""
    block = b"NATS/1.0\r\nNats-Msg-Id: %08d\r\n\r\n" % number
    return b"HPUB orders.a %s %d %d\r\n%s%s\r\n" % (reply, len(block), len(block) + len(PAYLOAD), block, PAYLOAD)


def answer(body):
    return b"MSG _I.1 1 %d\r\n%s\r\n" % (len(body), body)


def acknowledgement(seq, duplicate=False):
    return answer(b'{%s"seq":%d,"stream":"ORDERS"}' % (b'"duplicate":true,' if duplicate else b"", seq))


def acknowledgements(first, count):
    return b"".join(acknowledgement(seq) for seq in range(first, first + count))


def is_exactly(wanted):
    """A test of an output: it is these bytes."""
    return lambda wrote: wrote == wanted


def has_answers(count, text):
    """A test of an output: it has so many answers, each with this text."""
    return lambda wrote: wrote.count(text) == count and wrote.count(b"\r\n") == 2 * count


def spread(count, among):
    """So many numbers from 1 to `among`, none of them next to the one before."""
    return [1 + 7919 * n % among for n in range(count)]
