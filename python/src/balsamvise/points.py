"""Point records as numpy arrays."""
from __future__ import annotations

import operator
from typing import Any, Callable, Iterable, Iterator, Mapping, Sequence

import numpy as np

from .arrays import Array, DType, RecordArray
from .extra_bytes import ExtraBytes
from .fields import Bits, Coordinates, Field, Scaled, View, plain, same_memory
from .head import Head

_POINT = [
    ("X", "<i4"), ("Y", "<i4"), ("Z", "<i4"), ("intensity", "<u2"), ("bit_fields", "u1"), ("raw_classification", "u1"),
    ("scan_angle_rank", "i1"), ("user_data", "u1"), ("point_source_id", "<u2"),
]
_TIME = [("gps_time", "<f8")]
_COLOUR = [("red", "<u2"), ("green", "<u2"), ("blue", "<u2")]
_EXTRA = "extra_bytes"

_BITS = {
    "return_number": ("bit_fields", 0, 7), "number_of_returns": ("bit_fields", 3, 7),
    "scan_direction_flag": ("bit_fields", 6, 1), "edge_of_flight_line": ("bit_fields", 7, 1),
    "classification": ("raw_classification", 0, 31), "synthetic": ("raw_classification", 5, 1),
    "key_point": ("raw_classification", 6, 1), "withheld": ("raw_classification", 7, 1),
}
"""The fields that are some bits of a byte: that byte's field, the lowest bit, and the greatest value."""

_ROWS_SHOWN = 1_000_000
"""The number of records of which the repr looks for the box."""


def dtype_of(format: int, extra: int = 0) -> DType:
    """The type of the records of a point data format, 0 to 3, with `extra` extra bytes, 0 to 192.

    The fields have the names of the LAS specification, in lower case but for the raw coordinates `X`, `Y` and `Z`.
    `bit_fields` has the return number, the number of returns, the scan direction and the edge of a flight line;
    `raw_classification` has the class and its flags. `Points` gives each of these under its own name.
    """
    if not 0 <= format <= 3 or not 0 <= extra <= 192:
        raise ValueError(f"no point data format {format} with {extra} extra bytes is read here")
    fields: list[Any] = list(_POINT)
    if format % 2 == 1:
        fields += _TIME
    if format >= 2:
        fields += _COLOUR
    if extra > 0:
        fields.append((_EXTRA, "u1", (extra,)))
    return np.dtype(fields)


def layout_of(dtype: DType) -> tuple[int, int]:
    """The point data format and the number of extra bytes of records of such a type."""
    names = dtype.names or ()
    format = ("gps_time" in names) + 2 * ("red" in names)
    extra = dtype[_EXTRA].itemsize if _EXTRA in names else 0
    if extra > 192 or dtype != dtype_of(format, extra):
        raise ValueError(f"the array has other fields than the records of a point data format: {dtype}")
    return format, extra


_assign: Callable[[Any, Any, Any], None] = np.ndarray.__setitem__


class _Named:
    """A field of records as an attribute."""

    def __init__(self, text: str) -> None:
        self.__doc__ = text

    def __set_name__(self, owner: type, name: str) -> None:
        self._name = name

    def __get__(self, points: Any, owner: Any = None) -> Any:
        if points is None:
            return self
        try:
            return points[self._name]
        except KeyError as error:
            raise AttributeError(error.args[0]) from None


class Points(Array):
    """An array of point records, each a struct of the fields of `dtype_of`, with the head of their file.

    Each field is an attribute and an item: `points.intensity`, `points["intensity"]`. What is assigned to it, as
    `points.classification[points.z < 3] = 2` or `points.x += 0.5`, is written through to the records. A value that the
    field can't hold raises `OverflowError` with its index, one that is no number or no integer where one is due
    `TypeError` or `ValueError`, and nothing is changed then. `fields` has all names.

    Slices, masks and copies are `Points` with the same head; a slice is the same records, a mask is a copy of them, as
    ever in numpy. `points[7]` is a `Point`, one record.
    """

    head: Head | None
    """The head: it has the scales and offsets, and what extra bytes mean."""

    X = _Named("The raw x coordinates: i4.")
    Y = _Named("The raw y coordinates: i4.")
    Z = _Named("The raw z coordinates: i4.")
    x = _Named("The x coordinates, `X` times the x scale with the x offset added: f8, in units of the file's CRS. What "
               "is assigned is rounded to the nearest `X`.")
    y = _Named("The y coordinates: f8, as `x`.")
    z = _Named("The z coordinates: f8, as `x`.")
    xyz = _Named("The coordinates: f8, a row of x, y and z for each record.")
    intensity = _Named("The strength of the echo: u2, 0 to 65535.")
    bit_fields = _Named("The byte of the return number, the number of returns and two flags: u1.")
    return_number = _Named("The return number of each record: u1, 0 to 7.")
    number_of_returns = _Named("The number of returns of the pulse of each record: u1, 0 to 7.")
    scan_direction_flag = _Named("Whether the mirror went in positive direction: bool.")
    edge_of_flight_line = _Named("Whether the record is the last of a scan line: bool.")
    raw_classification = _Named("The byte of the class and its flags: u1.")
    classification = _Named("The class of each record: u1, 0 to 31.")
    synthetic = _Named("Whether the record was made by something else than a scan: bool.")
    key_point = _Named("Whether the record is a key point of a model: bool.")
    withheld = _Named("Whether the record is to be left out: bool.")
    scan_angle_rank = _Named("The angle of the scan: i1, in degrees, -90 to 90 and below 0 to the left.")
    user_data = _Named("The user data: u1.")
    point_source_id = _Named("The number of the flight line or other source: u2.")
    gps_time = _Named("The time, of the formats 1 and 3: f8, in seconds of the GPS week, or as the head says.")
    red = _Named("Red, of the formats 2 and 3: u2, 0 to 65535.")
    green = _Named("Green, of the formats 2 and 3: u2, 0 to 65535.")
    blue = _Named("Blue, of the formats 2 and 3: u2, 0 to 65535.")
    extra_bytes = _Named("The extra bytes, if there are any: u1, a row for each record.")

    def __new__(cls, records: Array, head: Head | None) -> Points:
        format, extra = layout_of(records.dtype)
        if isinstance(records, Points):
            records = records.view(np.ndarray)
        points = np.asarray(records).view(cls)
        points.head = head
        return points

    def __array_finalize__(self, other: Any) -> None:
        np.ndarray.__setattr__(self, "head", getattr(other, "head", None))

    @classmethod
    def _of(cls, records: Array, head: Head) -> Points:
        """A plain array of a head's records, whose type is not looked at."""
        points: Points = records.view(cls)
        np.ndarray.__setattr__(points, "head", head)
        return points

    @classmethod
    def zeros(cls, count: int, head: Head) -> Points:
        """This many records of a head's format, with zeros in all fields."""
        return cls._of(np.zeros(count, dtype_of(head.format, head.extra)), head)

    @classmethod
    def of_columns(cls, head: Head, **columns: Any) -> Points:
        """Records of a head's format out of columns by the names of fields, each an array or one value for all.

        Fields that are not named are 0. It raises as an assignment to the field does.
        """
        lengths = {len(it) for it in columns.values() if np.ndim(it) > 0}
        if len(lengths) != 1:
            raise ValueError(f"columns have one length, and these have {sorted(lengths)}")
        points = cls.zeros(lengths.pop(), head)
        for name, values in columns.items():
            points[name] = values
        return points

    @property
    def fields(self) -> tuple[str, ...]:
        """The names of all fields: those of the records, their parts, the coordinates, and named extra bytes."""
        names = [name for name in self.dtype.names or () if name != _EXTRA]
        parts = [name for name, (field, _, _) in _BITS.items() if field in names]
        scaled = ["x", "y", "z", "xyz"] if self.head is not None else []
        raw = [_EXTRA] if _EXTRA in (self.dtype.names or ()) else []
        return (*names, *parts, *scaled, *raw, *self._named_extras())

    def _named_extras(self) -> Mapping[str, ExtraBytes]:
        if self.head is None or _EXTRA not in (self.dtype.names or ()):
            return {}
        room = self.dtype[_EXTRA].itemsize
        return {name: it for name, it in self.head.extra_bytes.items() if it.place + it.size <= room and
                name not in _RESERVED}

    def _field(self, name: str) -> Field | View | Array:
        """A field by its name; `KeyError` if these records have none."""
        names = self.dtype.names or ()
        array = self.view(np.ndarray)
        if name in names:
            return Field(array[name], name)
        if name in _BITS and _BITS[name][0] in names:
            field, shift, most = _BITS[name]
            return Bits(name, array[field], shift, most)
        if name in ("x", "y", "z", "xyz") and "X" in names:
            if self.head is None:
                raise ValueError("these records have no head, so no scales and offsets")
            axes = [Scaled("xyz"[at], array["XYZ"[at]], self.head.scales[at], self.head.offsets[at])
                    for at in range(3)]
            return Coordinates(axes) if name == "xyz" else axes["xyz".index(name)]
        named = self._named_extras()
        if name in named:
            assert self.dtype.fields is not None
            return named[name].field(array, self.dtype.fields[_EXTRA][1])
        kind = f"records of point data format {layout_of(self.dtype)[0]}" if names else f"an array of {self.dtype}"
        raise KeyError(f"{kind} have no field {name}")

    def __getattr__(self, name: str) -> Any:
        if not name.startswith("_") and name in self._named_extras():
            return self._field(name)
        raise AttributeError(f"points have no field or attribute {name}")

    def __setattr__(self, name: str, value: Any) -> None:
        if name == "head":
            self._set_head(value)
        elif name in _RESERVED or name in self._named_extras() and not hasattr(type(self), name):
            try:
                self[name] = value
            except KeyError as error:
                raise AttributeError(error.args[0]) from None
        elif name in ("shape", "strides", "dtype"):
            super().__setattr__(name, value)
        else:
            raise AttributeError(f"points have no field {name} that can be set")

    def _set_head(self, head: Head | None) -> None:
        if head is not None and (self.dtype.names is None or layout_of(self.dtype) != (head.format, head.extra)):
            raise ValueError(f"the head is of format {head.format} with {head.extra} extra bytes, and the records are "
                             f"not: {self.dtype}")
        super().__setattr__("head", head)

    def __dir__(self) -> Iterable[str]:
        return [*super().__dir__(), *self._named_extras()]

    def __getitem__(self, key: Any) -> Any:
        if isinstance(key, str):
            return self._field(key)
        if self.ndim == 1 and self.dtype.names and hasattr(key, "__index__") and np.ndim(key) == 0 \
                and not isinstance(key, (bool, np.bool_)):
            try:
                at = range(len(self))[operator.index(key)]
            except IndexError:
                raise IndexError(f"record {key} of {len(self)}") from None
            return Point(self._slice(at, at + 1))
        item = super().__getitem__(plain(key))
        return item.view(np.ndarray) if isinstance(item, Points) and item.dtype != self.dtype else item

    def _slice(self, start: int, stop: int) -> Points:
        part: Points = np.ndarray.__getitem__(self, slice(start, stop))  # type: ignore[assignment]
        return part

    def __setitem__(self, key: Any, value: Any) -> None:
        if not isinstance(key, str):
            _assign(self, plain(key), self._records(value))
            return
        field = self._field(key)
        if not same_memory(field, value):  # as after `points.x += 1`, which has set it already
            field[...] = value

    def _records(self, value: Any) -> Any:
        """What is assigned to places, if it is records of the same type, scales and offsets."""
        records = np.asarray(value)
        if records.dtype != self.dtype:
            raise TypeError("records are set by records of the same fields; a field is set by its name")
        head = value.head if isinstance(value, (Points, Point)) else None
        checked_one_scale([self.head, head])
        return records

    def __eq__(self, other: Any) -> Any:
        """Whether each record is that of the other points, byte for byte but for numbers that are equal."""
        return self._equals(other, True)

    def __ne__(self, other: Any) -> Any:
        return self._equals(other, False)

    __hash__ = None

    def _equals(self, other: Any, same: bool) -> Any:
        if isinstance(other, Point):
            other = np.asarray(other)
        if not isinstance(other, (np.ndarray, np.void)) or other.dtype != self.dtype:
            return NotImplemented
        mine, others = self.view(np.ndarray), np.asarray(other)
        return mine == others if same else mine != others

    def __array_function__(self, function: Callable[..., Any], types: Any, arguments: Any, words: Any) -> Any:
        if function is np.concatenate and not words.get("out") and words.get("dtype") is None:
            return _concatenated(arguments[0], *arguments[1:], **words)
        return super().__array_function__(function, types, arguments, words)

    def view(self, *words: Any, **more: Any) -> Any:
        """A view, as of an array of numpy; one of another type is a plain array."""
        made = super().view(*words, **more)
        return made.view(np.ndarray) if isinstance(made, Points) and made.dtype != self.dtype else made

    def astype(self, *words: Any, **more: Any) -> Any:
        """A copy of another type, as of an array of numpy: a plain array."""
        return self.view(np.ndarray).astype(*words, **more)

    def argsort(self, *words: Any, **more: Any) -> Any:
        """The places of the records in order, a plain array."""
        return self.view(np.ndarray).argsort(*words, **more)

    def __reduce__(self) -> Any:
        build, arguments, state = super().__reduce__()  # type: ignore[misc]
        return build, arguments, (state, self.head)

    def __setstate__(self, state: Any) -> None:
        array, head = state
        super().__setstate__(array)
        np.ndarray.__setattr__(self, "head", head)

    def __deepcopy__(self, memory: Any) -> Points:
        return self.copy()

    def __repr__(self) -> str:
        if self.dtype.names is None:
            return repr(self.view(np.ndarray))
        format, extra = layout_of(self.dtype)
        lines = [f"<Points: {self.size:,} record{'s' * (self.size != 1)} of point data format {format}"]
        if extra:
            lines[0] += f" with {extra} extra byte{'s' * (extra != 1)}"
        if self.head is not None and 0 < self.size <= _ROWS_SHOWN:
            lines += [f"  {axis} from {np.min(self[axis]):.12g} to {np.max(self[axis]):.12g}" for axis in "xyz"]
        return "\n".join([*lines, f"  fields {', '.join(self.fields)}>"])

    __str__ = __repr__

    def rescaled(self, scales: Sequence[float], offsets: Sequence[float]) -> Points:
        """The same coordinates under other scales and offsets: a copy, with a head that has them.

        Each coordinate is rounded to the nearest that they can write. It raises `OverflowError` with the index if one
        leaves 32 bits.
        """
        made = self.copy()
        made.head = self._its_head().changed(scales=scales, offsets=offsets)
        for axis in "xyz":
            made[axis] = self[axis]
        return made

    def _its_head(self) -> Head:
        if self.head is None:
            raise ValueError("these records have no head")
        return self.head

    def with_extra(self, name: str, type: Any, values: Any = 0, *, scale: float | None = None,
                   offset: float | None = None, description: str = "", no_data: float | None = None) -> Points:
        """The records with one more field of extra bytes: a copy, with a head that describes it.

        `type` is `u1`, `i1`, `u2`, `i2`, `u4`, `i4`, `u8`, `i8`, `f4` or `f8`, or what numpy knows as one of these.
        With a scale or an offset the field is scaled. The name has 1 to 32 bytes, and no other field has it.
        """
        if name in self.fields or name in _RESERVED:
            raise ValueError(f"there is a field {name} already")
        head = self._its_head()
        field = ExtraBytes.new(name, type, scale=scale, offset=offset, description=description, no_data=no_data)
        made = self._with_room(head.with_extra_bytes(field))
        made[name] = values
        return made

    def without_extra(self, name: str) -> Points:
        """The records without a named field of extra bytes: a copy, with a head that does not describe it."""
        head = self._its_head()
        field = self._named_extras().get(name)
        if field is None:
            raise KeyError(f"there is no field of extra bytes {name}")
        made = Points(np.empty(self.shape, dtype_of(head.format, head.extra - field.size)), None)
        for other in made.dtype.names or ():
            if other != _EXTRA:
                made[other] = self[other]
        if head.extra > field.size:
            made[_EXTRA] = np.delete(np.asarray(self[_EXTRA]), slice(field.place, field.place + field.size), axis=-1)
        made.head = head.without_extra_bytes(name)
        return made

    def _with_room(self, head: Head) -> Points:
        """The records, with zeros for the extra bytes that the head has more."""
        made = Points(np.zeros(self.shape, dtype_of(head.format, head.extra)), head)
        source, target = self.view(np.ndarray), made.view(np.ndarray)
        for name in self.dtype.names or ():
            part = target[name]
            (part[..., :source[name].shape[-1]] if name == _EXTRA else part)[...] = source[name]
        return made

    def in_format(self, format: int) -> Points:
        """The records in another point data format, 0 to 3: a copy. Fields that it has more are 0.

        It raises `ValueError` if it has no room for a field of which a value is not 0.
        """
        head = self._its_head().changed(format=format)
        made = Points(np.zeros(self.shape, dtype_of(format, head.extra)), head)
        source, target = self.view(np.ndarray), made.view(np.ndarray)
        for name in self.dtype.names or ():
            if name in (made.dtype.names or ()):
                target[name] = source[name]
            elif source[name].any():
                raise ValueError(f"point data format {format} has no {name}, and it is not 0 in all records")
        return made

    def columns(self, names: Iterable[str] | None = None) -> RecordArray:
        """Some fields, scaled and unpacked, as a record array of their own; all but the raw bytes if none are named."""
        skipped = {"bit_fields", "raw_classification", "X", "Y", "Z", "xyz", _EXTRA}
        names = [name for name in self.fields if name not in skipped] if names is None else list(names)
        fields = [(name, self[name]) for name in names]
        types = [(name, field.dtype, field.shape[self.ndim:]) for name, field in fields]
        made = np.recarray(self.shape, dtype=np.dtype(types))
        for name, field in fields:
            made[name] = np.asarray(field)
        return made

    def to_pandas(self, names: Iterable[str] | None = None) -> Any:
        """A data frame of some fields, or of all, as `columns`. It needs the package pandas."""
        import pandas  # type: ignore[import]

        columns = self.columns(names)
        return pandas.DataFrame({name: columns[name] for name in columns.dtype.names or ()})

    def write(self, path: Any, **words: Any) -> None:
        """Writes the records under their head: `balsamvise.write(path, points.head, points, ...)`."""
        from .writing import write

        write(path, self._its_head(), self, **words)


_RESERVED = frozenset(name for name, it in vars(Points).items() if isinstance(it, _Named))
"""The names of the fields of all formats, which no field of extra bytes has as its own."""


class Point:
    """One record. Its fields are attributes and items, as scalars, and an assignment writes through to the points."""

    __slots__ = ("_points",)
    _points: Points

    def __init__(self, points: Points) -> None:
        object.__setattr__(self, "_points", points)

    @property
    def head(self) -> Head | None:
        """The head of the points."""
        return self._points.head

    @property
    def fields(self) -> tuple[str, ...]:
        """The names of all fields."""
        return self._points.fields

    def __getattr__(self, name: str) -> Any:
        if name.startswith("__") or name not in self._points.fields:
            raise AttributeError(f"a record has no field {name}")
        return self[name]

    def __setattr__(self, name: str, value: Any) -> None:
        if name not in self._points.fields:
            raise AttributeError(f"a record has no field {name}")
        self[name] = value

    def __getitem__(self, key: Any) -> Any:
        """A field by its name, or by its place in the record."""
        return self._points[key][0] if isinstance(key, str) else self.item()[key]

    def __setitem__(self, name: str, value: Any) -> None:
        self._points[name] = np.asarray(plain(value))[None]

    def item(self) -> tuple[Any, ...]:
        """The fields as they stand in the record, as a tuple."""
        found: tuple[Any, ...] = self._points.view(np.ndarray)[0].item()
        return found

    tolist = item

    def __iter__(self) -> Iterator[Any]:
        return iter(self.item())

    def __len__(self) -> int:
        return len(self.item())

    def __array__(self, dtype: Any = None, copy: Any = None) -> Array:
        record: Array = self._points.view(np.ndarray)[0:1].reshape(())
        return record.astype(dtype) if dtype is not None and np.dtype(dtype) != record.dtype else \
            record.copy() if copy else record

    def __eq__(self, other: Any) -> Any:
        if not isinstance(other, (Point, np.void)):
            return NotImplemented
        record, others = np.asarray(self), np.asarray(other)
        return record.dtype == others.dtype and bool(record == others)

    __hash__ = None  # type: ignore[assignment]

    def __repr__(self) -> str:
        shown = [name for name in self.fields if name not in ("bit_fields", "raw_classification", "xyz")]
        return f"<Point: {', '.join(f'{name} {self[name]}' for name in shown)}>"


def checked_one_scale(heads: Iterable[Head | None]) -> None:
    """Raises `ValueError` if raw coordinates or extra bytes mean different things under these heads."""
    known = [head for head in heads if head is not None]
    for head in known[1:]:
        if (head.scales, head.offsets) != (known[0].scales, known[0].offsets):
            raise ValueError(f"the points have scales {head.scales} and offsets {head.offsets}, and the others "
                             f"{known[0].scales} and {known[0].offsets}: `rescaled` gives them others")
        if list(head.extra_bytes.values()) != list(known[0].extra_bytes.values()):
            raise ValueError("the extra bytes of these points do not mean the same")


def _concatenated(parts: Sequence[Any], *words: Any, **more: Any) -> Any:
    parts = list(parts)
    types = {np.asarray(part).dtype for part in parts}
    if len(types) != 1:
        raise TypeError(f"the records have different fields: {', '.join(map(str, types))}")
    heads = [part.head for part in parts if isinstance(part, Points)]
    checked_one_scale(heads)
    made = np.concatenate([np.asarray(part) for part in parts], *words, **more)
    return Points(made, next((head for head in heads if head is not None), None))


def concatenate(parts: Iterable[Points]) -> Points:
    """The records of all parts, one after another, under the head of the first. `np.concatenate` gives the same.

    All parts have the same format, scales, offsets and extra bytes, else it raises `TypeError` or `ValueError`:
    `Points.in_format` and `Points.rescaled` make them so.
    """
    made: Points = _concatenated(list(parts))
    return made
