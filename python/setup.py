"""What pyproject.toml can't say: a wheel that has the library in it is for this kind of machine, and for any Python 3."""

import os

from setuptools import Distribution, setup

try:
    from setuptools.command.bdist_wheel import bdist_wheel
except ImportError:
    try:
        from wheel.bdist_wheel import bdist_wheel
    except ImportError:
        bdist_wheel = None

LIBRARY = os.path.join(os.path.dirname(os.path.abspath(__file__)), "mimetool", "libmimetool.so")


class MaybeWithLibrary(Distribution):
    def has_ext_modules(self) -> bool:
        return os.path.exists(LIBRARY)


def commands() -> dict:
    """The command that makes the wheel, where there is one."""
    if bdist_wheel is None:
        return {}

    class Wheel(bdist_wheel):
        def get_tag(self):
            return "py3", "none", super().get_tag()[2]

    return {"bdist_wheel": Wheel}


setup(distclass=MaybeWithLibrary, cmdclass=commands())
