"""What the typed views of the five families share."""
import struct
from typing import ClassVar, Dict, Tuple

from ._heads import WORDS, Heads
from .attributes import Attributes
from .message import HEADER_SIZE, VIEWS, Message


class View:
    """A message of one of the families as what it says. Each answer is read when it is asked for,
    and None where its attribute is missing or has another size than the value."""

    __slots__ = ("attributes", "_heads", "_at", "_end", "_head")

    attributes: Attributes
    """All of them, in their order."""
    context: ClassVar[int]
    """What their numbers mean: `enum rtnlc_context`."""
    _forms: ClassVar[Dict[str, struct.Struct]]
    _shown: ClassVar[Tuple[str, ...]]

    def __init_subclass__(
        cls, context: int = 0, form: str = "", shown: Tuple[str, ...] = ()
    ) -> None:
        # A class that is made of one of the five, by a user, is of its family too.
        if context:
            cls.context, cls._shown = context, shown
            cls._forms = {"little": struct.Struct(f"<{form}"), "big": struct.Struct(f">{form}")}
            VIEWS[context] = cls

    def __init__(self, heads: Heads, at: int, end: int) -> None:
        self._heads, self._at, self._end = heads, at, end
        self.attributes = Attributes(heads, at + 1, end, 0, self.context)
        head = heads.words[at * WORDS] + HEADER_SIZE
        self._head: Tuple[int, ...] = self._forms[heads.order].unpack_from(heads.data, head)

    @property
    def message(self) -> Message:
        """The message that it is of, whose type says whether it is new."""
        return Message(self._heads, self._at, self._end)

    def __repr__(self) -> str:
        named = (f"{name}={getattr(self, name)!r}" for name in self._shown)
        return f"<{type(self).__name__} {' '.join(named)}>"
