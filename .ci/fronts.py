"""The cases of all fronts of a talk: how the serving of a connection ends that breaks off at each of its bytes."""
from kept.desks import loaded
from kept.wires import MART, PLACED, POSTED, TALK

NAME = "fronts"
ESCAPED = {ord("\\"): "\\\\", ord("\r"): "\\r", ord("\n"): "\\n"}
FRAME = "a vault that a talk asks"


def block(data):
    """Bytes as one line of a block, of which the newline at its end is taken away."""
    text = "".join(ESCAPED.get(byte, chr(byte)) for byte in data)
    return f"  | {text[:-1]}\\s\\" if text.endswith(" ") else f"  | {text}\\"


def lines(text):
    """Lines as a block."""
    return "".join(f"  | {line}\n" for line in text.splitlines())


def frame():
    return f"frame {FRAME}\nfile mapping.toml\n{lines(PLACED)}run init\nerr\n  | init: Stored\n"


def end_of(length):
    """How the service ends behind so many bytes of the talk."""
    requests = (length >= len(POSTED)) + (length >= len(TALK))
    return f"{'Ended' if length in (0, len(POSTED), len(TALK)) else 'Cut'} {requests}"


def replies_to(length):
    """What is written then: a reply to each request that is whole."""
    return [reply for reply, end in ((loaded(18), len(POSTED)), (MART, len(TALK))) if length >= end]


def case(length):
    """A connection that has so many bytes of the talk, over a new vault, and the windows that are there behind it."""
    yield f"case the first {length} of the {len(TALK)} bytes of a talk"
    yield f"like {FRAME}\nconnect"
    if length:
        yield f"in\n{block(TALK[:length])}"
    if replies := replies_to(length):
        yield f"replies\n{block(b''.join(reply.bytes() for reply in replies))}"
    yield f"ends {end_of(length)}"
    yield "run windows\nout\n  | load_date,state,feeds"
    if replies:
        yield "  | 2024-03-01T02:00:00,sealed,customers orders placements"


def fronts():
    """All of them as a text of cases."""
    return "\n".join([frame(), *("\n".join([*case(length), ""]) for length in range(len(TALK) + 1))])
