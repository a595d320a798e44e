"""The smallest volumes that still differ as those of an unexplained boot."""
from boots import UNEXPLAINED, compare, kind, write

CUTS = (12, 6, 3, 2, 1)


def is_still(folder: str, texts: list[str], wanted: str, phase: str) -> bool:
    """Whether volumes differ as the larger ones did."""
    try:
        write(folder, texts)
    except (ValueError, IndexError):
        return False
    outcome = compare(folder, phase)
    return outcome.word == UNEXPLAINED and kind(outcome.difference) == wanted


def smaller(texts: list[str]) -> list[list[str]]:
    """The volumes with some lines less, many first."""
    found = []
    for number, text in enumerate(texts):
        lines = text.strip().split("\n")
        for count in CUTS:
            for at in range(1, len(lines) - count):
                less = "\n".join(lines[:at] + lines[at + count :]) + "\n"
                found.append(texts[:number] + [less] + texts[number + 1 :])
    return found


def shrink(folder: str, texts: list[str], wanted: str, phase: str) -> None:
    """Writes the smallest volumes found that still differ so: as long as some lines can go, they go."""
    least = next((less for less in smaller(texts) if is_still(folder, less, wanted, phase)), None)
    while least is not None:
        texts = least
        least = next((less for less in smaller(texts) if is_still(folder, less, wanted, phase)), None)
    write(folder, texts)
