"""Fields of point records: arrays whose assignments are checked and written through to the records."""
from __future__ import annotations

import operator
from typing import Any, Callable, Sequence

import numpy as np

from .arrays import Array, DType

_BLOCK = 16384
"""How many records are changed at a time, so that they stay in the processor's cache between two steps."""


def _place(bad: Array) -> str:
    """Where the first true value of an array is, as a part of a message."""
    if bad.ndim == 0:
        return ""
    found = np.unravel_index(int(bad.argmax()), bad.shape)
    return " at index " + ", ".join(str(int(at)) for at in found)


def _out_of_range(name: str, values: Array, low: int, high: int) -> OverflowError:
    bad = ~((values >= low) & (values <= high))
    value = values[np.unravel_index(int(bad.argmax()), bad.shape)] if values.ndim else values[()]
    return OverflowError(f"{name}: {value}{_place(bad)} is not {low} to {high}")


def _numbers(name: str, value: Any) -> Array:
    """What is assigned, as an array of numbers."""
    values = np.asarray(value)
    if values.dtype.kind == "O" and values.size and all(isinstance(it, int) for it in values.flat):  # past 64 bits
        raise OverflowError(f"{name}: {max(values.flat, key=abs)} is no number of 64 bits")
    if values.dtype.kind not in "buif":
        raise TypeError(f"{name} takes numbers, and not {values.dtype}")
    return values


def integers(name: str, value: Any, low: int, high: int) -> Array:
    """What is assigned to a field of integers, as an array of them.

    It raises `OverflowError` for the first value that is not `low` to `high`, and `ValueError` for one that is no
    integer.
    """
    values = _numbers(name, value)
    if values.size == 0 or values.dtype.kind == "b" and high >= 1:
        return values
    if values.dtype.kind in "ui":
        info = np.iinfo(values.dtype)
        if low <= info.min and info.max <= high:
            return values
    least, most = values.min(), values.max()
    if values.dtype.kind == "f" and np.isfinite(least) and np.isfinite(most):
        bad = np.rint(values) != values
        if bad.any():
            value = values[np.unravel_index(int(bad.argmax()), bad.shape)]
            raise ValueError(f"{name}: {value}{_place(bad)} is no integer; np.rint rounds")
    if not (least >= low and most <= high):  # also if one is not a number
        raise _out_of_range(name, values, low, high)
    return values


def limits_of(dtype: DType) -> tuple[int, int]:
    """The least and the greatest number of a type of integers."""
    info = np.iinfo(dtype)
    return int(info.min), int(info.max)


def fitting(name: str, value: Any, dtype: DType) -> Array:
    """What is assigned to a field of this type, if the field can hold it."""
    if dtype.kind in "ui":
        return integers(name, value, *limits_of(dtype))
    values = _numbers(name, value)
    if dtype.itemsize < 8 and values.dtype.itemsize > dtype.itemsize:
        with np.errstate(over="ignore"):
            bad = np.isinf(values.astype(dtype)) & ~np.isinf(values)
        if bad.any():
            value = values[np.unravel_index(int(bad.argmax()), bad.shape)]
            raise OverflowError(f"{name}: {value}{_place(bad)} leaves {dtype.itemsize * 8} bits")
    return values


def plain(value: Any) -> Any:
    """Arrays of numpy in the place of fields, in a value or in lists and tuples of them."""
    if isinstance(value, Field):
        return value.view(np.ndarray)
    if isinstance(value, View):
        return np.asarray(value)
    if isinstance(value, (list, tuple)):
        return type(value)(plain(it) for it in value)
    return value


def _to_read(value: Any) -> Any:
    """As `plain`, with arrays that can only be read in the place of fields."""
    if isinstance(value, Field):
        value = value.view(np.ndarray)
        value.flags.writeable = False
        return value
    if isinstance(value, (list, tuple)):
        return type(value)(_to_read(it) for it in value)
    return plain(value)


def _wide(value: Any) -> Any:
    """Integers as those of 64 bits, so that what is computed of them does not wrap before it is checked."""
    value = plain(value)
    if isinstance(value, np.ndarray) and value.dtype.kind in "ui" and value.dtype.itemsize < 8:
        return value.astype(np.int64)
    return value


def _apply(ufunc: np.ufunc, method: str, inputs: Sequence[Any], words: dict[str, Any]) -> Any:
    """What a function of numpy gives of fields; with an `out` of fields, these, with each value checked."""
    outs = words.pop("out", ())
    if not any(isinstance(out, (Field, View)) for out in outs):
        if outs:
            words["out"] = outs
        if method == "at" and isinstance(inputs[0], (Field, View)):
            values = np.array(_wide(inputs[0]))
            ufunc.at(values, *map(_wide, inputs[1:]))
            inputs[0][...] = values
            return None
        return getattr(ufunc, method)(*map(plain, inputs), **{name: plain(it) for name, it in words.items()})
    if words.get("where", True) is not True:
        raise TypeError("a field is changed at all places, or by an index: where= is not taken")
    results = getattr(ufunc, method)(*map(_wide, inputs), **words)
    for out, result in zip(outs, results if isinstance(results, tuple) else (results,)):
        if out is not None:
            out[...] = result
    return outs[0] if len(outs) == 1 else outs


_assign: Callable[[Any, Any, Any], None] = np.ndarray.__setitem__


class Field(Array):
    """A field of records that numpy sees as it stands in memory. What is assigned to it is checked.

    It is an array of numpy in all else. `np.asarray` of it is the same memory without these checks.
    """

    name: str

    def __new__(cls, array: Array, name: str) -> Field:
        field = array.view(cls)
        field.name = name
        return field

    def __array_finalize__(self, other: Any) -> None:
        self.name = getattr(other, "name", "the field")

    def __setitem__(self, key: Any, value: Any) -> None:
        _assign(self, key, fitting(self.name, value, self.dtype))

    def fill(self, value: Any) -> None:
        """Sets all values."""
        self[...] = value

    def put(self, indices: Any, values: Any, mode: Any = "raise") -> None:
        """Sets the values at these places."""
        super().put(indices, fitting(self.name, values, self.dtype), mode)

    def __array_ufunc__(self, ufunc: np.ufunc, method: str, *inputs: Any, **words: Any) -> Any:
        return _apply(ufunc, method, inputs, words)

    def __array_function__(self, function: Callable[..., Any], types: Any, arguments: Any, words: Any) -> Any:
        if function in (np.put, np.place, np.putmask) and isinstance(arguments[0], Field) and len(arguments) == 3:
            values = fitting(self.name, arguments[2], arguments[0].dtype)
            return function(arguments[0].view(np.ndarray), plain(arguments[1]), values)
        if function is np.copyto and isinstance(arguments[0], Field) and len(arguments) == 2 and not words:
            arguments[0][...] = arguments[1]
            return None
        # other functions get arrays that can't be written, so that none of them assigns without these checks
        return function(*map(_to_read, arguments), **{name: _to_read(it) for name, it in words.items()})


class View(np.lib.mixins.NDArrayOperatorsMixin):
    """A field that is computed when it is read, and written through to the records when it is assigned.

    It stands where an array of numpy may stand, and has an array's methods. `np.asarray` of it, and what its methods
    work on, is a computed array that can't be written, so that no assignment is lost; `np.array` makes one of your own.
    """

    __array_priority__ = 20.0
    name: str
    """The name of the field."""
    dtype: DType
    """The type of its values."""

    def _base(self) -> Array:
        """The array of the records that the field is computed of."""
        raise NotImplementedError

    def _over(self, base: Array) -> View:
        """The same field of other records."""
        raise NotImplementedError

    def _same_rule(self, other: Any) -> bool:
        """Whether another field of this type computes its values alike."""
        raise NotImplementedError

    def _values(self, base: Array) -> Array:
        """The values of the field."""
        raise NotImplementedError

    def _set(self, base: Array, key: Any, value: Any) -> None:
        """Sets the values at a key, or raises and sets none."""
        raise NotImplementedError

    def _read(self) -> Array:
        values = self._values(self._base())
        values.flags.writeable = False
        return values

    @property
    def shape(self) -> tuple[int, ...]:
        """The shape of the array."""
        return self._base().shape

    @property
    def ndim(self) -> int:
        """The number of dimensions."""
        return len(self.shape)

    @property
    def size(self) -> int:
        """The number of values."""
        return int(np.prod(self.shape))

    def __len__(self) -> int:
        return len(self._base())

    def __array__(self, dtype: Any = None, copy: Any = None) -> Array:
        if copy is False:
            raise ValueError(f"{self.name} is computed, so an array of it is a copy")
        values = self._read()
        if dtype is not None and np.dtype(dtype) != values.dtype:
            return values.astype(dtype)
        return values.copy() if copy else values

    def __array_ufunc__(self, ufunc: np.ufunc, method: str, *inputs: Any, **words: Any) -> Any:
        return _apply(ufunc, method, inputs, words)

    def __array_function__(self, function: Callable[..., Any], types: Any, arguments: Any, words: Any) -> Any:
        if function is np.copyto and isinstance(arguments[0], View) and len(arguments) == 2 and not words:
            arguments[0][...] = arguments[1]
            return None
        target = arguments[0] if arguments else words.get("a", words.get("arr"))
        if function in (np.put, np.place, np.putmask) and isinstance(target, View):
            # (the putmask of numpy 1.19 writes to a copy of an array that can't be written, and says nothing)
            raise ValueError(f"{target.name}: np.{function.__name__} does not write to it; an assignment does")
        return function(*map(plain, arguments), **{name: plain(it) for name, it in words.items()})

    def __getattr__(self, name: str) -> Any:
        if name.startswith("_"):
            raise AttributeError(name)
        return getattr(self._read(), name)

    def __setattr__(self, name: str, value: Any) -> None:
        if not name.startswith("_") and name not in ("name", "dtype"):
            raise AttributeError(f"a field has no {name} that can be set")
        object.__setattr__(self, name, value)

    def __getitem__(self, key: Any) -> Any:
        part = self._base()[key]
        if isinstance(part, np.ndarray) and _is_view(key):
            return self._over(part)
        values = self._values(np.asarray(part))
        return values if values.ndim else values[()]

    def __setitem__(self, key: Any, value: Any) -> None:
        if value is not self:
            self._set(self._base(), key, plain(value))

    def fill(self, value: Any) -> None:
        """Sets all values."""
        self[...] = value

    def __iter__(self) -> Any:
        return iter(self._read())

    def __contains__(self, value: Any) -> bool:
        return value in self._read()

    def __bool__(self) -> bool:
        return bool(self._read())

    def __repr__(self) -> str:
        return f"{self.name}: {self._read()!r}"


def _memory(array: Array) -> tuple[Any, ...]:
    found = array.__array_interface__
    return found["data"], found["shape"], array.strides, array.dtype


def same_memory(field: Any, value: Any) -> bool:
    """Whether a value is this very field of the same records."""
    if type(field) is not type(value) or field.name != value.name:
        return False
    if isinstance(field, Coordinates):
        return all(map(same_memory, field._axes, value._axes))
    if isinstance(field, View):
        return field._same_rule(value) and _memory(field._base()) == _memory(value._base())
    return isinstance(field, Field) and _memory(field) == _memory(value)


def _is_view(key: Any) -> bool:
    """Whether numpy gives a view for this key, and no copy."""
    parts = key if isinstance(key, tuple) else (key,)
    return all(part is None or part is Ellipsis or isinstance(part, slice) or hasattr(part, "__index__") and
               not isinstance(part, (bool, np.bool_, np.ndarray)) for part in parts)


class Bits(View):
    """Some bits of a byte of each record, from `shift` on, as numbers from 0 to `most`."""

    def __init__(self, name: str, array: Array, shift: int, most: int) -> None:
        self.name = name
        self.dtype = np.dtype(np.bool_ if most == 1 else np.uint8)
        self._array = array
        self._shift = shift
        self._most = most

    def _base(self) -> Array:
        return self._array

    def _over(self, base: Array) -> View:
        return Bits(self.name, base, self._shift, self._most)

    def _same_rule(self, other: Any) -> bool:
        return (self._shift, self._most) == (other._shift, other._most)

    def _values(self, base: Array) -> Array:
        if self._most == 1:
            return np.asarray((base & np.uint8(1 << self._shift)) != 0)
        values: Array = base >> np.uint8(self._shift) if self._shift else base
        return np.asarray(values & np.uint8(self._most))

    def _set(self, base: Array, key: Any, value: Any) -> None:
        values = integers(self.name, value, 0, self._most)
        if np.may_share_memory(values, base):  # blocks of it would be read after they were changed
            values = values.copy()
        keep = np.uint8(0xFF ^ (self._most << self._shift))
        part = base[key]
        if not isinstance(part, np.ndarray) or not _is_view(key):
            base[key] = part & keep | values.astype(np.uint8) << np.uint8(self._shift)
        elif values.ndim == 0:
            _set_bits(part, keep, np.uint8(int(values) << self._shift))
        else:
            _put_bits(part, keep, np.broadcast_to(values, part.shape), self._shift)


def _blocks(array: Array) -> range:
    return range(0, len(array), _BLOCK)


def _set_bits(part: Array, keep: np.uint8, bits: np.uint8) -> None:
    """Sets the bits outside of `keep` to one value, in each record."""
    if part.ndim == 0:
        part[...] = part & keep | bits
        return
    for at in _blocks(part):
        block = part[at:at + _BLOCK]
        block[...] = block & keep | bits


def _put_bits(part: Array, keep: np.uint8, values: Array, shift: int) -> None:
    """Sets the bits outside of `keep` to values that fit."""
    for at in _blocks(part):
        block = part[at:at + _BLOCK]
        bits = values[at:at + _BLOCK].astype(np.uint8)
        if shift:
            bits <<= np.uint8(shift)
        block[...] = block & keep | bits


class Scaled(View):
    """A field of integers, times a scale and with an offset added, as numbers of 64 bits."""

    def __init__(self, name: str, array: Array, scale: float, offset: float) -> None:
        self.name = name
        self.dtype = np.dtype(np.float64)
        self._array = array
        self._scale = scale
        self._offset = offset

    def _base(self) -> Array:
        return self._array

    def _over(self, base: Array) -> View:
        return Scaled(self.name, base, self._scale, self._offset)

    def _same_rule(self, other: Any) -> bool:
        return (self._scale, self._offset) == (other._scale, other._offset)

    def _values(self, base: Array) -> Array:
        values: Array = np.asarray(base * np.float64(self._scale))
        values += self._offset
        return values

    def raw(self, value: Any) -> Array:
        """The integers that are nearest to scaled values, in the type of the field.

        It raises `OverflowError` if one leaves that type, or is not a number.
        """
        values = _numbers(self.name, value)
        if values.size and not self._fits(values):
            raise self._refusal(values)
        result = np.empty(values.shape, self._array.dtype)
        if values.ndim == 0:
            result[...] = self._rounded(values)
            return result
        for at in _blocks(values):
            np.copyto(result[at:at + _BLOCK], self._rounded(values[at:at + _BLOCK]), casting="unsafe")
        return result

    def _rounded(self, values: Array) -> Array:
        if self._array.dtype.kind == "f":
            return np.asarray((values - self._offset) / self._scale)
        with np.errstate(all="ignore"):
            return np.asarray(np.rint((values - np.float64(self._offset)) / self._scale))

    def _fits(self, values: Array) -> bool:
        """Whether all values fit: the least and the greatest do, since rounding keeps the order."""
        if self._array.dtype.kind == "f":
            return True
        low, high = limits_of(self._array.dtype)
        ends = self._rounded(np.array([values.min(), values.max()], np.float64))
        return bool(((ends >= low) & (ends < float(high + 1))).all())

    def _refusal(self, values: Array) -> OverflowError:
        low, high = limits_of(self._array.dtype)
        raw = self._rounded(values)
        bad = np.asarray(~((raw >= low) & (raw < float(high + 1))))
        value = values[np.unravel_index(int(bad.argmax()), bad.shape)] if values.ndim else values[()]
        bits = 8 * self._array.dtype.itemsize
        return OverflowError(f"{self.name}: {value}{_place(bad)} leaves {bits} bits with the scale {self._scale} and "
                             f"the offset {self._offset}")

    def _set(self, base: Array, key: Any, value: Any) -> None:
        values = _numbers(self.name, value)
        part = base[key] if _is_view(key) else None
        if not isinstance(part, np.ndarray) or values.ndim == 0 or values.shape != part.shape:
            base[key] = self.raw(values)
            return
        if values.size and not self._fits(values):
            raise self._refusal(values)
        for at in _blocks(values):
            np.copyto(part[at:at + _BLOCK], self._rounded(values[at:at + _BLOCK]), casting="unsafe")


class Coordinates(View):
    """x, y and z of each record: an array with a row of three for each."""

    def __init__(self, axes: Sequence[Scaled]) -> None:
        self.name = "xyz"
        self.dtype = np.dtype(np.float64)
        self._axes = tuple(axes)

    @property
    def shape(self) -> tuple[int, ...]:
        """The shape of the array: that of the records, and 3."""
        return (*self._axes[0].shape, 3)

    def __len__(self) -> int:
        return len(self._axes[0])

    def _read(self) -> Array:
        values: Array = np.stack([np.asarray(axis) for axis in self._axes], axis=-1)
        values.flags.writeable = False
        return values

    def __getitem__(self, key: Any) -> Any:
        if isinstance(key, slice):
            return Coordinates([axis[key] for axis in self._axes])
        if isinstance(key, tuple) and len(key) == 2 and self.ndim == 2 and isinstance(key[0], slice):
            if not isinstance(key[1], slice):
                return self._axes[operator.index(key[1])][key[0]]
        return self._read()[key].copy()

    def __setitem__(self, key: Any, value: Any) -> None:
        """Sets rows, or with a pair as key the coordinates of an axis: either all, or none."""
        if value is self:
            return
        axes: tuple[Scaled, ...] = self._axes
        values = _numbers(self.name, plain(value))
        if isinstance(key, tuple) and len(key) == 2 and self.ndim == 2:
            key, which = key
            axes = self._axes[which] if isinstance(which, slice) else (self._axes[operator.index(which)],)
            if not isinstance(which, slice):
                values = values[..., None]
        elif isinstance(key, tuple) and key != (Ellipsis,):
            raise IndexError("xyz is set by rows, or by rows and an axis")
        shape = (*self._axes[0]._base()[key].shape, len(axes))
        values = np.broadcast_to(values, shape)
        raws = [axis.raw(values[..., at]) for at, axis in enumerate(axes)]
        for axis, raw in zip(axes, raws):
            axis._base()[key] = raw
