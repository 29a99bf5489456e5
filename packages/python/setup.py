"""The wheel has a library of x86-64 Linux in it, and fits each Python 3, since ctypes loads that."""

from setuptools import Distribution, setup

try:
    from setuptools.command.bdist_wheel import bdist_wheel
except ImportError:
    from wheel.bdist_wheel import bdist_wheel


class Platform(Distribution):
    def has_ext_modules(self) -> bool:
        return True


class Wheel(bdist_wheel):
    def get_tag(self) -> tuple[str, str, str]:
        # manylinux2014 has glibc 2.17; checks/release looks whether the library needs no later one.
        return "py3", "none", "manylinux2014_x86_64"


setup(cmdclass={"bdist_wheel": Wheel}, distclass=Platform)
