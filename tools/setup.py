"""What pyproject.toml can't say: the version, and which modules of this folder are no commands."""

from pathlib import Path

from setuptools import setup
from setuptools.command.build_py import build_py

# In a checkout it stands above this folder; as `1.2.0~dev` between releases.
VERSION = Path(__file__).resolve().parent.parent / "VERSION"


class Modules(build_py):
    """The modules of a package, without the tests that stand beside them, and without this one."""

    def find_package_modules(self, package: str, package_dir: str) -> list[tuple[str, str, str]]:
        found = super().find_package_modules(package, package_dir)
        return [it for it in found if it[1] != "setup" and not it[1].startswith("test_")]


version = VERSION.read_text().strip().replace("~dev", ".dev0") if VERSION.exists() else "0"
setup(version=version, cmdclass={"build_py": Modules})
