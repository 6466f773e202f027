"""The cargo of this machine, if it has one."""
import re
import shutil
import subprocess

# the first one that takes the crate, as its Cargo.toml says
NEW_ENOUGH = (1, 80)
WANTED = ".".join(map(str, NEW_ENOUGH))


def is_there():
    """Whether there is a cargo that takes the crate."""
    if not shutil.which("cargo"):
        return False
    printed = subprocess.run(["cargo", "--version"], capture_output=True, text=True).stdout
    version = re.match(r"cargo (\d+)\.(\d+)", printed)
    return version is not None and tuple(map(int, version.groups())) >= NEW_ENOUGH
