"""Puts the released program, and the explorer's page, into the package, where there is one for this kind of machine, and tags the wheel for it."""
import os
import platform
import shutil

from setuptools import Distribution, setup
from setuptools.command.build_py import build_py

try:
    from setuptools.command.bdist_wheel import bdist_wheel
except ImportError:
    from wheel.bdist_wheel import bdist_wheel

RELEASE = os.path.join(os.path.dirname(os.path.abspath(__file__)), "..", "release")
PROGRAM = os.path.join(RELEASE, f"{platform.machine()}-{platform.system().lower()}", "datacube")
PAGE = os.path.join(RELEASE, "..", "explorer", "index.html")
HAS_PROGRAM = os.path.isfile(PROGRAM)
# (the newest symbols of the C library that the released program asks for, which is all that it needs beside the kernel)
LIBC = (2, 34)


class BuildWithProgram(build_py):
    def run(self):
        super().run()
        if not HAS_PROGRAM:
            self.warn(f"no program at {PROGRAM}: the package will look for datacube on the PATH")
        elif not getattr(self, "editable_mode", False):
            folder = os.path.join(self.build_lib, "jackraisin", "bin")
            os.makedirs(folder, exist_ok=True)
            shutil.copy(os.path.join(RELEASE, "NOTICES"), folder)
            os.chmod(shutil.copy(PROGRAM, folder), 0o755)
        if os.path.isfile(PAGE) and not getattr(self, "editable_mode", False):
            shutil.copy(PAGE, os.path.join(self.build_lib, "jackraisin", "postgres", "explorer.html"))


class WheelOfPlatform(bdist_wheel):
    """Any Python 3, and where it has the program, this kind of machine with its C library or a later one."""

    def get_tag(self):
        of_program = f"manylinux_{LIBC[0]}_{LIBC[1]}_{platform.machine()}"
        return ("py3", "none", of_program if HAS_PROGRAM else super().get_tag()[2])


class WithProgram(Distribution):
    def has_ext_modules(self):
        return HAS_PROGRAM


setup(distclass=WithProgram, cmdclass={"build_py": BuildWithProgram, "bdist_wheel": WheelOfPlatform})
