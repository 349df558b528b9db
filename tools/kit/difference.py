"""Two frames and their difference as one picture."""

from .picture import GAP, Picture

LEAST = 48           # how bright the smallest difference is


def amplified(a, b):
    """For each pixel how much the two differ, the smallest difference well visible; equal pixels are dark."""
    if a == b:
        return bytes((24, 24, 24, 255)) * (len(a) // 4)
    out = bytearray(bytes((24, 24, 24, 255)) * (len(a) // 4))
    for at in range(0, len(a), 4):
        if a[at:at + 4] != b[at:at + 4]:
            far = [abs(a[at + c] - b[at + c]) for c in range(4)]
            out[at:at + 3] = bytes(min(255, LEAST + 3 * (v + far[3])) if v or far[3] else 24 for v in far[:3])
    return bytes(out)


def scale_of(size):
    """How large the pixels of small frames are drawn."""
    return max(1, min(8, 320 // max(size)))


def pictures(size, a, b):
    """The two frames and their difference side by side."""
    scale = scale_of(size)
    parts = [Picture.of(*size, data, scale) for data in (a, b, amplified(a, b))]
    whole = Picture.ground(sum(part.w + GAP for part in parts) + GAP, parts[0].h + 2 * GAP)
    x = GAP
    for part in parts:
        whole.lay(part, x, GAP)
        x += part.w + GAP
    return whole
