"""Puts the shared library into the package, and tags the wheel: it is for one platform, and for each Python 3.

The library is the file that RIMOPAKU_LIBRARY names, or that which stands in the package, or that of this processor in
the folder prebuilt of the repository. RIMOPAKU_LIBRARY=system puts none in: the package then takes the installed one.
RIMOPAKU_PLATFORM names the platform of the wheel, where the one of this machine is not right for it.
"""

import os
import platform
import shutil
from pathlib import Path
from typing import Optional

from setuptools import Distribution, setup
from setuptools.command.build_py import build_py

try:
    from setuptools.command.bdist_wheel import bdist_wheel
except ImportError:
    from wheel.bdist_wheel import bdist_wheel

HERE = Path(__file__).resolve().parent


def library() -> Optional[Path]:
    named = os.environ.get("RIMOPAKU_LIBRARY")
    if named == "system":
        return None
    of_repository = HERE.parents[1] / "prebuilt" / f"{platform.machine()}-linux" / "librimopaku.so.1"
    found = [Path(named)] if named else [HERE / "rimopaku" / "librimopaku.so", of_repository]
    for it in found:
        if it.is_file():
            return it
    raise SystemExit(f"rimopaku: there is no {' and no '.join(map(str, found))}: RIMOPAKU_LIBRARY names the library")


class BuildWithLibrary(build_py):
    def run(self):
        super().run()
        found = library()
        if found is not None and not getattr(self, "editable_mode", False):
            to = Path(self.build_lib) / "rimopaku"
            to.mkdir(parents=True, exist_ok=True)
            shutil.copyfile(found, to / "librimopaku.so")


class WithLibrary(Distribution):
    def has_ext_modules(self):
        return True


class PlatformWheel(bdist_wheel):
    def get_tag(self):
        return "py3", "none", os.environ.get("RIMOPAKU_PLATFORM") or super().get_tag()[2]


setup(distclass=WithLibrary, cmdclass={"bdist_wheel": PlatformWheel, "build_py": BuildWithLibrary})
