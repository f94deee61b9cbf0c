"""What a program of cases reads and must write: frames, and files held to be as made."""

import pathlib
import struct

ROOT = pathlib.Path(__file__).parent.parent


def frame(data):
    """A length in two bytes, low byte first, and so many bytes."""
    return len(data).to_bytes(2, "little") + data


def numbers(entries):
    """A frame of numbers, two bytes each, low byte first."""
    return frame(struct.pack(f"<{len(entries)}H", *entries))


def heading(text):
    """A case that is printed as it is."""
    return frame(b"h") + frame(text.encode())


def held(path):
    return path.read_bytes() if path.exists() else None


def keep(made, words):
    """Writes the files, by their paths in the repository, or says which differ.

    The answer is what the script exits with.
    """
    if words == ["--write"]:
        for path, data in made.items():
            (ROOT / path).parent.mkdir(parents=True, exist_ok=True)
            (ROOT / path).write_bytes(data)
        return 0
    wrong = [path for path, data in made.items() if held(ROOT / path) != data]
    for path in wrong:
        print(f"{path}: differs")
    print(f"{len(made)} compared, {len(wrong)} differ")
    return min(len(wrong), 1)
