"""Tests of the package. Where the variable HUMPIPE_BARE is set they run as if none of the packages were there that some of them need."""
import os
import sys

PACKAGES = ('pytest', 'pandas', 'tqdm', 'matplotlib', 'distributed', 'nbclient', 'IPython')
BARE = 'HUMPIPE_BARE'


# with the variable it is said of tests that neither need nor touch these packages that they ran before
SEEN = os.environ.get(BARE)


class _Hidden:
    """Finds none of these packages."""

    @staticmethod
    def find_spec(name, path=None, target=None):
        if name.split('.')[0] in PACKAGES:
            raise ModuleNotFoundError(f'no {name} for these tests', name=name)


if os.environ.get('HUMPIPE'):
    # tests go to other folders
    os.environ['HUMPIPE'] = os.path.abspath(os.environ['HUMPIPE'])
if SEEN:
    sys.meta_path.insert(0, _Hidden)
