"""The boots whose pages are tried, and how a page is made of one. `check-report` and `try-report` use it."""
import os
import shlex
import shutil
import subprocess
import sys

ROOT = os.path.dirname(os.path.dirname(os.path.abspath(__file__)))
PROGRAMS = [os.path.join(ROOT, "crates", name, "out", name) for name in ("piboot", "pitools")]
# A folder of examples/, and the words of `report`: ten modules of which three wait, eight drivers, 279 modules, every service, two of real
# firmware, one as its log tells of it and one in the machine's own order.
BOOTS = [("why", "plan"), ("drivers", "plan"), ("large-boot", "plan"), ("every-service", "plan"),
         ("real/plain", "plan trace --names log --title 'A boot of OVMF in QEMU, as its log records it'"), ("real/arm", "plan --names log")]


def programs(words: list[str]) -> dict[str, str]:
    """The environment in which `report` takes these programs, or those that `rt ci` leaves."""
    piboot, pitools = words or PROGRAMS
    return os.environ | {"PIBOOT": os.path.abspath(piboot), "PITOOLS": os.path.abspath(pitools)}


def make_page(example: str, words: str, folder: str, environment: dict[str, str]) -> None:
    """Writes the page of an example into a folder; volumes that are kept as texts alone are made first."""
    work = os.path.join(folder, "boot")
    shutil.copytree(os.path.join(ROOT, "examples", example), work)
    for text in (file for file in os.listdir(work) if file.endswith(".volume")):
        volume = os.path.join(work, text.removesuffix("volume") + "fv")
        if not os.path.exists(volume):
            with open(volume, "wb") as made:
                subprocess.run([environment["PITOOLS"], "volume", os.path.join(work, text)], stdout=made, check=True)
    run = [os.path.join(ROOT, "scripts", "report"), *shlex.split(words), "--out", folder, "--dot"]
    ran = subprocess.run(run, cwd=work, env=environment, capture_output=True, text=True, check=False)
    if ran.returncode != 0:
        print(ran.stderr, file=sys.stderr)
        raise SystemExit(f"report made no page of {example}")
    shutil.rmtree(work)
