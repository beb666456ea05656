"""Worked rows of superblock copies: which of them are chosen, and which field refuses the file."""

from . import superblock
from .form import SECTOR, SMALL, Home
from .superblock import Content, naming

A5 = b"\xa5" * SECTOR
HOME = Home(SMALL, 7)
FIRST = superblock.first(HOME)
TOP = 2**62


def file_of(*sectors: bytes) -> bytes:
    return b"".join(sectors)


def copies_of(*contents: Content) -> bytes:
    """A file of these contents, each at its place."""
    return file_of(*(content.encode(place) for place, content in enumerate(contents)))


def four(**fields) -> bytes:
    """Four equal copies with some other fields than a first superblock's."""
    return copies_of(*[FIRST._replace(**fields)] * 4)


NEWER = FIRST._replace(sequence=2)
SPENT = FIRST._replace(boot=TOP)
BLANK, C = bytes(SECTOR), [FIRST.encode(place) for place in range(4)]
OTHER = superblock.first(Home(SMALL, 8))
# The file, the words, the script; the text and the status. In these files nothing stands after the copies.
ROWS = (
    # Two contents of equal sequence: that of copy 0 is chosen, and written over the other one.
    (file_of(C[0], OTHER.encode(1), OTHER.encode(2), C[3]), "run", "append 1 1 -", "appended 1\n", 0),
    (file_of(OTHER.encode(0), C[1], OTHER.encode(2), C[3]), "run", "append 1 1 -", "appended 1\n", 0),
    # Copies at rest that are struck.
    (file_of(C[0], A5, C[2], A5), "run", "append 1 1 -", "appended 1\n", 0),
    (file_of(A5, A5, A5, C[3]), "run", "", "refused NoQuorum Garbled Garbled Garbled Stale\n", 4),
    (file_of(C[0], C[0], BLANK, A5), "run", "", "refused NoQuorum Stale Elsewhere Superblock 0 Blank Garbled\n", 4),
    (file_of(C[0], BLANK, BLANK, BLANK), "run", "", "refused NoQuorum Stale Blank Blank Blank\n", 4),
    (file_of(C[0], C[1]), "run", "append 1 1 -", "appended 1\n", 0),
    (file_of(C[1], C[2], C[3], C[0]), "run", "", "refused NoQuorum Elsewhere Superblock 1 Elsewhere Superblock 2 "
     "Elsewhere Superblock 3 Elsewhere Superblock 0\n", 4),
    (file_of(BLANK, C[1][:16] + b"\4" + C[1][17:], C[2], C[3][:31] + b"\1" + C[3][32:]), "run", "",
     "refused NoQuorum Blank Garbled Stale Garbled\n", 4),
    # Two contents: the greater sequence with two votes; of equal ones that of the lowest number.
    (copies_of(FIRST, FIRST, NEWER, NEWER), "run", "append 1 1 -\nprepare 1", "appended 1\n"
     "prepare 1 client 1 request 1 mark 0 checkpoint 2 body -\n", 0),
    (copies_of(NEWER, FIRST, FIRST, FIRST), "run", "append 1 1 -", "appended 1\n", 0),
    (copies_of(FIRST._replace(version=9), FIRST, FIRST, FIRST._replace(version=9)), "run", "", "refused Version found 9\n", 4),
    (copies_of(OTHER, FIRST, OTHER, FIRST._replace(boot=1)), "run", "append 1 1 -", "appended 1\n", 0),
    # Contents of one sequence: the greater boot is chosen, in copies of any version, and may then be refused.
    (copies_of(FIRST, FIRST, SPENT, SPENT), "run", "", "refused BootSpent\n", 4),
    (copies_of(FIRST._replace(boot=7, slots=0), FIRST, FIRST._replace(boot=7, slots=0), FIRST), "run", "", "refused BadField Slots 0\n", 4),
    (copies_of(FIRST._replace(boot=7), NEWER, FIRST._replace(boot=7), NEWER), "run", "append 1 1 -", "appended 1\n", 0),
    (copies_of(*[FIRST._replace(version=9, boot=7)] * 2, *[FIRST._replace(boot=6)] * 2), "run", "", "refused Version found 9\n", 4),
    (copies_of(*[FIRST._replace(version=9, boot=6)] * 2, *[FIRST._replace(boot=7)] * 2), "run", "append 1 1 -", "appended 1\n", 0),
    (copies_of(*[FIRST._replace(version=1)] * 2, *[FIRST._replace(boot=7)] * 2), "run", "append 1 1 -", "appended 1\n", 0),
    (copies_of(*[FIRST._replace(version=1, boot=7)] * 2, *[FIRST] * 2), "run", "", "refused Version found 1\n", 4),
    # Four equal copies with right checksums.
    (four(version=9), "run", "", "refused Version found 9\n", 4),
    (four(version=1), "run", "", "refused Version found 1\n", 4),
    (four(version=1), "upgrade", "append 1 1 -\n", "upgraded 1\n", 0),
    (file_of(A5, FIRST._replace(version=1).encode(1), A5, FIRST._replace(version=1).encode(3)), "upgrade", "", "upgraded 1\n", 0),
    (four(version=2), "upgrade", "", "refused Version found 2\n", 4),
    (four(version=1, boot=1), "upgrade", "", "refused BadField Boot 1\n", 4),
    (file_of(C[0], C[1], FIRST._replace(version=1).encode(2), FIRST._replace(version=1).encode(3)), "upgrade", "",
     "refused Version found 2\n", 4),
    (four(version=1, slots=0), "run", "", "refused Version found 1\n", 4),
    (four(slots=0), "run", "", "refused BadField Slots 0\n", 4),
    (four(slots=0, cluster=0), "run", "", "refused BadField Slots 0\n", 4),
    (four(message_size=4097), "run", "", "refused BadField MessageSize 4097\n", 4),
    (four(clients=65), "run", "", "refused BadField Clients 65\n", 4),
    (four(block_size=0), "run", "", "refused BadField BlockSize 0\n", 4),
    (four(blocks=7), "run", "", "refused BadField Blocks 7\n", 4),
    (four(cluster=0), "run", "", "refused BadField Cluster 0\n", 4),
    (four(sequence=0), "run", "", "refused BadField Sequence 0\n", 4),
    (four(sequence=TOP + 1), "run", "", f"refused BadField Sequence {TOP + 1}\n", 4),
    (four(sequence=TOP), "run", "append 1 1 -", "appended 1\n", 0),
    (four(op=TOP + 1), "run", "", f"refused BadField Op {TOP + 1}\n", 4),
    (four(op_checksum=bytes(15) + b"\1"), "run", "", f"refused BadField OpChecksum {2**120}\n", 4),
    (four(op=1), "run", "", "refused BadField Head 0\n", 4),
    (four(head=33), "run", "", "refused BadField Head 33\n", 4),
    (four(op=TOP, head=TOP + 1), "run", "", f"refused BadField Head {TOP + 1}\n", 4),
    (four(head=9), "run", "", "refused BadField Replies 0\n", 4),
    (four(head=8), "run", "", "refused Damaged WalPrepares 8 Blank\n", 4),
    (four(replies=1), "run", "", "refused BadField Replies 1\n", 4),
    (four(trailer_address=65), "run", "", "refused BadField TrailerAddress 65\n", 4),
    (four(op=1, head=1, replies=1), "run", "", "refused BadField TrailerAddress 0\n", 4),
    (four(trailer_checksum=b"\1" + bytes(15)), "run", "", "refused BadField TrailerChecksum 1\n", 4),
    (four(trailer_size=1), "run", "", "refused BadField TrailerSize 1\n", 4),
    (four(trailer_address=64), "run", "", "refused BadField TrailerSize 0\n", 4),
    (four(trailer_address=64, trailer_size=2193), "run", "", "refused BadField TrailerSize 2193\n", 4),
    (four(boot=1), "run", "append 1 1 -", "appended 1\n", 0),
    (four(boot=TOP - 1), "run", "append 1 1 -\nprepare 1\n", "appended 1\nprepare 1 client 1 request 1 mark 0 checkpoint 1 body -\n", 0),
    (four(boot=TOP), "run", "", "refused BootSpent\n", 4),
    (four(boot=TOP + 1), "run", "", f"refused BadField Boot {TOP + 1}\n", 4),
    (four(behind=naming(b"\0\1" + bytes(14))), "run", "", "refused BadField Head 256\n", 4),
    (four(behind=naming(bytes(16), [(3, A5[:16])])), "run", "append 1 1 -", "appended 1\n", 0),
    (four(behind=naming(bytes(16), [(5, A5[:16]), (4, A5[:16])])), "run", "", "refused BadField Replies 4\n", 4),
    (four(behind=naming(bytes(16), [(63, A5[:16])])), "run", "", "refused BadField Replies 63\n", 4),
    (four(behind=bytes(3935) + b"\1"), "run", "", "refused BadField Zero 4095\n", 4),
    (four(behind=bytes(16) + b"\1" + bytes(3918) + b"\1"), "run", "", "refused BadField Zero 176\n", 4),
    (four(behind=bytes(1056) + b"\1" + bytes(2879)), "run", "", "refused BadField Zero 1216\n", 4),
    # Two neighbouring tests fail: the first is named.
    (four(slots=17, message_size=1), "run", "", "refused BadField Slots 17\n", 4),
    (four(message_size=1, clients=0), "run", "", "refused BadField MessageSize 1\n", 4),
    (four(clients=0, block_size=1), "run", "", "refused BadField Clients 0\n", 4),
    (four(block_size=1, blocks=16385), "run", "", "refused BadField BlockSize 1\n", 4),
    (four(blocks=16385, cluster=0), "run", "", "refused BadField Blocks 16385\n", 4),
    (four(cluster=0, sequence=0), "run", "", "refused BadField Cluster 0\n", 4),
    (four(sequence=0, op=TOP + 1), "run", "", "refused BadField Sequence 0\n", 4),
    (four(op=TOP + 1, head=0), "run", "", f"refused BadField Op {TOP + 1}\n", 4),
    (four(op_checksum=b"\1" + bytes(15), head=33), "run", "", "refused BadField OpChecksum 1\n", 4),
    (four(head=33, replies=34), "run", "", "refused BadField Head 33\n", 4),
    (four(replies=1, trailer_address=65), "run", "", "refused BadField Replies 1\n", 4),
    (four(op=1, head=1, trailer_checksum=b"\1" + bytes(15)), "run", "", "refused BadField TrailerAddress 0\n", 4),
    (four(trailer_checksum=b"\1" + bytes(15), trailer_size=1), "run", "", "refused BadField TrailerChecksum 1\n", 4),
    (four(trailer_size=1, boot=TOP + 1), "run", "", "refused BadField TrailerSize 1\n", 4),
    (four(boot=TOP + 1, behind=b"\1" * 3936), "run", "", f"refused BadField Boot {TOP + 1}\n", 4),
    (four(behind=b"\1" * 3936), "run", "", f"refused BadField Head {int.from_bytes(bytes([1] * 16), 'little')}\n", 4),
    (four(behind=bytes(16) + b"\1" * 3920), "run", "", "refused BadField Replies 4\n", 4),
)
# What a program says that knows no checkpoints.
WITHOUT_CHECKPOINTS = (
    (four(), "run", "step\n", "script 1\n", 3),
    (four(), "run", "checkpoint -\n", "script 1\n", 3),
    (four(trailer_address=64, trailer_size=2192), "run", "", "refused BadField TrailerAddress 64\n", 4),
    (four(op=1, head=1, replies=1, trailer_address=1, trailer_size=1, op_checksum=A5[:16], behind=naming(A5[:16])), "run", "",
     "refused BadField TrailerAddress 1\n", 4),
)
