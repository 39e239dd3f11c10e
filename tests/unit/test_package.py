"""The package from outside: its names, its version, its exceptions."""

import pydoc
import re

import pytest

import vabgrot
from tests.support import TOP
from vabgrot import place


def test_names():
    """What `dir` shows, so that shells complete it, is what the package says that it has; and `help` describes it."""
    public = [name for name in dir(vabgrot) if not name.startswith("_")]
    assert public == vabgrot.__all__ == sorted(vabgrot.__all__)
    text = pydoc.plain(pydoc.render_doc(vabgrot))
    for name in public:
        found = getattr(vabgrot, name)
        assert found.__name__ == name and found.__doc__ and re.search(rf"\b{name}\b", text)
    with pytest.raises(AttributeError, match="no attribute 'nothing'"):
        vabgrot.nothing


def test_type_checkers_know_the_names():
    """The imports that they see are those that are done when a name is first used."""
    text = (TOP / "python/vabgrot/__init__.py").read_text()
    seen = {home: tuple(names.split(", ")) for home, names in re.findall(r"(?m)^    from vabgrot\.(\w+) import (.+)$", text)}
    assert seen == vabgrot._HOMES and sorted(name for names in seen.values() for name in names) == sorted(vabgrot.__all__)
    assert (TOP / "python/vabgrot/py.typed").is_file()


def test_version(monkeypatch, tmp_path):
    """A wheel that pip made says the package's own."""
    monkeypatch.setattr(place, "IS_INSTALLED", True)
    monkeypatch.setattr(place, "VERSION", tmp_path / "none")
    assert place.version() == f"vabgrot {vabgrot.__version__}\n" and re.fullmatch(r"\d+\.\d+\.\d+", vabgrot.__version__)


def test_exceptions():
    """One tree, in which BadListing is a ValueError too."""
    tree = {
        vabgrot.Refused: vabgrot.Error,
        vabgrot.Misuse: vabgrot.Error,
        vabgrot.Unaligned: vabgrot.Refused,
        vabgrot.NoLibrary: vabgrot.Refused,
        vabgrot.BadListing: vabgrot.Refused,
    }
    assert all(one.__base__ is above for one, above in tree.items()) and vabgrot.Error.__base__ is Exception
    assert issubclass(vabgrot.BadListing, ValueError) and issubclass(vabgrot.KindWarning, UserWarning)
