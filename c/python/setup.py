"""With the shared object a wheel of the package is for this kind of machine alone. Without it the package has `Program`,
and the wheel is for all."""

import os

from setuptools import setup
from setuptools.dist import Distribution

HERE = os.path.dirname(os.path.abspath(__file__))


class MaybeBinaryDistribution(Distribution):
    def has_ext_modules(self):
        return os.path.exists(os.path.join(HERE, "src", "pciex", "libpciex.so"))


setup(distclass=MaybeBinaryDistribution)
