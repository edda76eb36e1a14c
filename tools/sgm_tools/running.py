"""How a tool runs and ends, and the packages of Python that it may need.

What stands in the way is a Wrong, whose words become one line on standard error; a file that can't be
opened is an OSError.
"""

from __future__ import annotations

import glob
import importlib
import os
import sys
from collections.abc import Callable
from typing import TYPE_CHECKING, Any, NoReturn

DEBIAN_PYTHON = "/usr/bin/python3"
DEBIAN_PACKAGES = {"numpy": "python3-numpy", "PIL": "python3-pil", "cv2": "python3-opencv"}
DEBIAN_PACKAGES["GDAL"] = "python3-gdal"
DEBIAN_PACKAGES["selenium"] = "python3-selenium chromium chromium-driver"
# The same for pip.
PIP_PACKAGES = {"numpy": "numpy", "PIL": "pillow", "cv2": "opencv-python-headless", "GDAL": "gdal"}
HERE = os.path.dirname(os.path.realpath(__file__))
# Whether the package stands beside the scripts, as in a checkout and in Debian's package, and wasn't installed by pip.
IS_BESIDE_SCRIPTS = os.path.exists(os.path.join(HERE, "..", "stretch.py"))


class Wrong(Exception):
    """What stands in the way, in words, and the status with which the tool then ends."""

    def __init__(self, text: str, status: int = 1) -> None:
        super().__init__(text)
        self.status = status


# Packages


def package(name: str) -> Any:
    """The module of that name, or None where no package brings it.

    Debian's packages belong to Debian's Python. Where the python3 of the PATH is another one and lacks the
    package, and Debian's has it, a script that stands beside this package starts anew with Debian's.
    """
    try:
        return importlib.import_module(name)
    except ImportError:
        pass
    is_debian = os.path.realpath(sys.executable) == os.path.realpath(DEBIAN_PYTHON)
    top = name.partition(".")[0]
    found = glob.glob(f"/usr/lib/python3/dist-packages/{top}") + glob.glob(f"/usr/lib/python3/dist-packages/{top}.*so")
    if IS_BESIDE_SCRIPTS and found and not is_debian and os.access(DEBIAN_PYTHON, os.X_OK):
        os.execv(DEBIAN_PYTHON, [DEBIAN_PYTHON, *sys.orig_argv[1:]])
    return None


if TYPE_CHECKING:
    import numpy as numpy
    from PIL import Image as Image
    from PIL import ImageOps as ImageOps
else:
    numpy = package("numpy")
    Image = package("PIL.Image")
    ImageOps = package("PIL.ImageOps")
if Image is not None:
    # Above so many Pillow warns and then refuses; large photographs have more than its own number.
    Image.MAX_IMAGE_PIXELS = 1 << 30


def need(**modules: object) -> None:
    """Stops where one of the modules, given by its name, is None."""
    missing = [name for name, module in modules.items() if module is None]
    if missing:
        names = DEBIAN_PACKAGES if IS_BESIDE_SCRIPTS else PIP_PACKAGES
        packages = " ".join(names[name] for name in missing)
        how = f"apt-get install {packages} on Debian" if IS_BESIDE_SCRIPTS else f"pip install {packages}"
        named = " and ".join([", ".join(missing[:-1])] * (len(missing) > 1) + missing[-1:])
        raise Wrong(f"{named} of Python needed: {how}")


def need_for_tests(**modules: object) -> None:
    """The same for tests by unittest, to be called by their setUpModule: one line, the status 1, and no traceback."""
    try:
        need(**modules)
    except Wrong as error:
        sys.exit(f"{tool_name()}: {error}")


# How a tool runs and ends


def tool_name() -> str:
    return os.path.basename(sys.argv[0]).removesuffix(".py")


def run(main: Callable[[], int | None]) -> NoReturn:
    """Ends with the status of main; what it raises for a reason that can be said is one line and 1, or
    the status that it has for it."""
    try:
        status = main()
        sys.stdout.flush()
    except BrokenPipeError:
        # Nobody reads on. What is still to be written would fail once more at the end.
        os.dup2(os.open(os.devnull, os.O_WRONLY), sys.stdout.fileno())
        sys.exit(f"{tool_name()}: standard output was closed")
    except OSError as error:
        sys.exit(f"{tool_name()}: {': '.join(str(it) for it in (error.filename, error.strerror or error) if it)}")
    except Wrong as error:
        progress("")
        print(f"{tool_name()}: {error}", file=sys.stderr)
        sys.exit(error.status)
    except MemoryError:
        sys.exit(f"{tool_name()}: no memory")
    except KeyboardInterrupt:
        sys.exit(130)
    finally:
        progress("")
    sys.exit(status)


def progress(what: str) -> None:
    """Shows on a terminal what is being done, in place of what was shown before; nothing elsewhere."""
    if sys.stderr is not None and sys.stderr.isatty():
        print(f"\r\033[K{what}", end="", file=sys.stderr, flush=True)
