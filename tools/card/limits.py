"""What the models of cards don't send, though they mark it done and move the head all the same; found by trying."""

LEAST_E1000E, MOST_PARTS_E1000E, MOST_E1000E, MOST_E1000 = 14, 64, 69_632, 65_535


def why_unsent(model, text, parts):
    """Why a frame of these bytes in so many parts isn't sent; None where it is, or may be."""
    if model == "e1000":
        return f"longer than {MOST_E1000} bytes" if len(text) > MOST_E1000 else None
    if len(text) < LEAST_E1000E:
        return f"shorter than {LEAST_E1000E} bytes"
    if parts > MOST_PARTS_E1000E:
        return f"more than {MOST_PARTS_E1000E} descriptors"
    return f"longer than {MOST_E1000E} bytes" if len(text) > MOST_E1000E else None
