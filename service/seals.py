"""Which leaf of a replica's key made a seal (LMS and two-level HSS, RFC 8554)."""

from __future__ import annotations

TOP_HEIGHT = 5                  # levels of the upper tree of two
CHAINS, DIGEST = 67, 32
HEIGHTS = {5: (5,), 10: (10,), 505: (TOP_HEIGHT, 5), 510: (TOP_HEIGHT, 10)}
# Of a seal with two levels, before the lower signature: the upper one's leaf, types, chains and
# path, and the lower public key.
UPPER = 4 + 4 + 4 + DIGEST * (1 + CHAINS) + 4 + DIGEST * TOP_HEIGHT + 56


def leaf_of(seal: bytes, height: int) -> int:
    """The number of the leaf that a seal names, counted over all lower trees."""
    heights = HEIGHTS[height]
    if len(heights) == 1:
        return int.from_bytes(seal[:4], "big")
    tree, leaf = (int.from_bytes(seal[at:at + 4], "big") for at in (4, UPPER))
    return tree << heights[1] | leaf
