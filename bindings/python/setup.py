"""Names the machines for which a wheel is: those of the kind of this one, where the wheel has the library. pyproject.toml has the rest."""
import os

from setuptools import setup

try:
    from setuptools.command.bdist_wheel import bdist_wheel
except ImportError:
    from wheel.bdist_wheel import bdist_wheel

LIBRARY = os.path.join(os.path.dirname(os.path.abspath(__file__)), 'bobbinjade', 'libcedar.so')


class Wheel(bdist_wheel):
    """A wheel for each Python 3, and for machines of one kind where it has the library."""

    def finalize_options(self):
        super().finalize_options()
        self.root_is_pure = not os.path.exists(LIBRARY)

    def get_tag(self):
        _, _, platform = super().get_tag()
        return 'py3', 'none', platform


setup(cmdclass={'bdist_wheel': Wheel})
