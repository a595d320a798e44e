"""Has `pitools` or `piboot` answer, for the scripts of this folder: the one that `scripts/program` gives, or that which is installed with them."""
import functools
import os
import shutil
import subprocess

SCRIPTS = os.path.dirname(os.path.realpath(__file__))
FINDER, INSTALLED = os.path.join(SCRIPTS, "program"), os.path.normpath(os.path.join(SCRIPTS, "../../lib/piboot/bin"))


@functools.cache
def path(program: str = "pitools") -> str:
    """The path of a program. In a checkout it may have to be made first, once."""
    if os.path.exists(FINDER):
        found = subprocess.run([FINDER, program], stdout=subprocess.PIPE, check=False)
        if found.returncode:
            raise ValueError(f"there is no {program} to run")
        return found.stdout.decode().strip()
    given = os.environ.get(program.upper()) or os.path.join(INSTALLED, program)
    return os.path.abspath(shutil.which(given) or shutil.which(program) or given)


def answer(*words: str, folder: str | None = None, program: str = "pitools", is_quiet: bool = False) -> tuple[int, bytes]:
    """The exit status for the words of a command line, and what is printed; a quiet program says nothing on standard error."""
    environment = os.environ | {"PIBOOT_WORDS": ""} if is_quiet else None
    ran = subprocess.run([path(program), *words], cwd=folder, env=environment, stdout=subprocess.PIPE, check=False)
    return ran.returncode, ran.stdout


def version() -> list[str]:
    """Which programs these are: the commit of the checkout, or what the installed one says of its version, commit and kit."""
    if os.path.exists(FINDER):
        commit = subprocess.run(["git", "-C", SCRIPTS, "describe", "--always", "--dirty", "--abbrev=12"], capture_output=True, text=True, check=False)
        return [f"piboot, of a checkout at {commit.stdout.strip() or 'no commit'}"]
    ran = subprocess.run([path("piboot"), "--version"], capture_output=True, check=False)
    return ran.stderr.decode(errors="replace").splitlines()[:3]
