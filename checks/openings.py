"""The beginnings of sessions, as sessions/openings/ has them."""


def opening(name):
    """The lines of an opening, and its replies."""
    with open(f"sessions/openings/{name}", encoding="utf-8") as file:
        lines = file.read().splitlines()
    return [line[2:] for line in lines if line.startswith("> ")], [line for line in lines if not line.startswith("> ")]
