"""Labels, as a script spells them: `{#3:3,#7:*,1}`."""
import enum
import struct
from collections.abc import Iterable, Mapping
from dataclasses import dataclass
from typing import Callable, Union


@dataclass(frozen=True, order=True)
class Category:
    """A category: 1 to 2^61 - 1, given once."""

    __slots__ = ("number",)
    number: int

    def __post_init__(self) -> None:
        if type(self.number) is not int:
            raise TypeError(f"the number of a category is an int, not {type(self.number).__name__}")
        if not 0 <= self.number < 1 << 64:
            raise ValueError("the number of a category has 64 bits")

    def __str__(self) -> str:
        return f"#{self.number}"

    def __reduce__(self) -> tuple[type["Category"], tuple[int]]:
        return Category, (self.number,)


class Level(enum.Enum):
    """A level that a label gives to a category. `STAR`, ownership, is the least, and `L3` the greatest."""

    L0 = 0
    L1 = 1
    L2 = 2
    L3 = 3
    STAR = 4

    def _rank(self) -> int:
        number: int = self.value
        return (number + 1) % 5

    def __lt__(self, other: "Level") -> bool:
        return self._rank() < other._rank() if isinstance(other, Level) else NotImplemented

    def __le__(self, other: "Level") -> bool:
        return self._rank() <= other._rank() if isinstance(other, Level) else NotImplemented

    def __gt__(self, other: "Level") -> bool:
        return self._rank() > other._rank() if isinstance(other, Level) else NotImplemented

    def __ge__(self, other: "Level") -> bool:
        return self._rank() >= other._rank() if isinstance(other, Level) else NotImplemented

    def __str__(self) -> str:
        return "*" if self is Level.STAR else str(self.value)


STAR = Level.STAR
_LEVELS = tuple(Level)
_BY_TEXT = {str(it): it for it in Level}
_MOST_PAIRS = 24

LevelOrNumber = Union[Level, int]
Pairs = Union[Mapping[Category, LevelOrNumber], Iterable[tuple[Category, LevelOrNumber]]]


def _level(it: LevelOrNumber) -> Level:
    if isinstance(it, Level):
        return it
    if type(it) is not int:
        raise TypeError(f"a level is a Level or 0 to 3, not {type(it).__name__}")
    if not 0 <= it <= 3:
        raise ValueError(f"a level is 0 to 3 or STAR, not {it}")
    return _LEVELS[it]


def _pair(category: object, level: LevelOrNumber) -> tuple[Category, Level]:
    if type(category) is not Category:
        raise TypeError(f"a label has levels of categories, not of {type(category).__name__}")
    return category, _level(level)


def _number(text: str) -> int:
    if not text.isascii() or not text.isdigit() or str(int(text)) != text:
        raise ValueError(text)
    return int(text)


def _spelled_pair(text: str) -> tuple[Category, Level]:
    category, colon, level = text.partition(":")
    if not colon or not category.startswith("#"):
        raise ValueError(text)
    return Category(_number(category[1:])), _BY_TEXT[level]


class Label:
    """A label: the level of all categories, and categories with their own. It does not change, and a set can hold it. One with over 24
    pairs makes no call, and one that names a category twice is refused `BadLabel`.

    Labels are equal where they give each category the same level. `a <= b` where that of `a` is at most that of `b` in each category: of two
    labels neither may be so. `a | b` is the least label that both are at most, and `a & b` the greatest that is at most both.

    >>> c, d = Category(3), Category(4)
    >>> str(Label(1, {c: 3, d: STAR}))
    '{#3:3,#4:*,1}'
    >>> Label(1) < Label(1, {c: 3}), Label(1, {c: 3}) <= Label(1, {d: 3})
    (True, False)
    """

    __slots__ = ("_default", "_pairs", "_record")
    _default: Level
    _pairs: tuple[tuple[Category, Level], ...]
    _record: bytes

    def __init__(self, default: LevelOrNumber, pairs: Pairs = ()) -> None:
        self._default = _level(default)
        given = pairs.items() if isinstance(pairs, Mapping) else pairs
        self._pairs = tuple(_pair(*it) for it in given)
        few = self._pairs[:_MOST_PAIRS]
        categories = [it[0].number for it in few] + [0] * (_MOST_PAIRS - len(few))
        levels = bytes(it[1].value for it in few)
        self._record = struct.pack("<BB24s6x24Q", self._default.value, min(len(self._pairs), _MOST_PAIRS + 1), levels, *categories)

    @staticmethod
    def parse(text: str) -> "Label":
        """Reads a label as scripts spell it, of at most 24 pairs; ValueError of any other text.

        >>> Label.parse("{#3:3,1}") == Label(1, {Category(3): 3})
        True
        """
        try:
            if text[:1] != "{" or text[-1:] != "}":
                raise ValueError(text)
            *pairs, default = text[1:-1].split(",")
            if len(pairs) > _MOST_PAIRS:
                raise ValueError(text)
            return Label(_BY_TEXT[default], [_spelled_pair(it) for it in pairs])
        except (KeyError, ValueError):
            raise ValueError(f"the text spells no label: {text!r}") from None

    @property
    def default(self) -> Level:
        """The level of each category that stands in no pair."""
        return self._default

    @property
    def pairs(self) -> tuple[tuple[Category, Level], ...]:
        """Categories with their levels."""
        return self._pairs

    def get(self, category: Category) -> Level:
        """The level of a category."""
        return next((level for it, level in self._pairs if it == category), self._default)

    def having(self, category: Category, level: LevelOrNumber) -> "Label":
        """The label with another level for a category."""
        kept = [it for it in self._pairs if it[0] != category]
        return Label(self._default, [*kept, (category, level)])

    def exceptions(self) -> dict[Category, Level]:
        """The categories that have another level than the default, by rising categories."""
        found = dict(reversed(self._pairs))
        return {it: found[it] for it in sorted(found) if found[it] is not self._default}

    def _merged(self, other: "Label", of_both: Callable[[Level, Level], Level]) -> "Label":
        default = of_both(self._default, other._default)
        levels = {it: of_both(self.get(it), other.get(it)) for it in [*self.exceptions(), *other.exceptions()]}
        return Label(default, {it: level for it, level in levels.items() if level is not default})

    def __or__(self, other: "Label") -> "Label":
        return self._merged(other, max) if isinstance(other, Label) else NotImplemented

    def __and__(self, other: "Label") -> "Label":
        return self._merged(other, min) if isinstance(other, Label) else NotImplemented

    def __eq__(self, other: object) -> bool:
        if not isinstance(other, Label):
            return NotImplemented
        return self._default is other._default and self.exceptions() == other.exceptions()

    def __hash__(self) -> int:
        return hash((self._default, tuple(self.exceptions().items())))

    def __le__(self, other: "Label") -> bool:
        return (self | other) == other if isinstance(other, Label) else NotImplemented

    def __lt__(self, other: "Label") -> bool:
        return self <= other and self != other if isinstance(other, Label) else NotImplemented

    def __ge__(self, other: "Label") -> bool:
        return other <= self if isinstance(other, Label) else NotImplemented

    def __gt__(self, other: "Label") -> bool:
        return other < self if isinstance(other, Label) else NotImplemented

    def __str__(self) -> str:
        return "{" + "".join(f"{it}:{level}," for it, level in self._pairs) + f"{self._default}}}"

    def __repr__(self) -> str:
        return f"Label.parse({str(self)!r})"

    def __reduce__(self) -> tuple[type["Label"], tuple[Level, tuple[tuple[Category, Level], ...]]]:
        return Label, (self._default, self._pairs)


def label_of(record: memoryview) -> Label:
    """The label of a record that the library wrote."""
    default, count, levels, *categories = struct.unpack("<BB24s6x24Q", record)
    return Label(_LEVELS[default], [(Category(it), _LEVELS[level]) for it, level in zip(categories[:count], levels)])
