"""A stand-in for pyarrow, with the few functions that tools/fleet uses. A table is its names, kinds and columns."""


def int64():
    return "int64"


def string():
    return "string"


class Schema(list):
    """Names and kinds, with their metadata."""

    def __init__(self, fields, metadata):
        super().__init__(fields)
        self.metadata = metadata


def schema(fields, metadata=None):
    return Schema(fields, metadata)


def array(column, kind):
    return [kind, *column]


def table(arrays, schema):
    assert [column[0] for column in arrays] == [kind for _, kind in schema]
    return schema, {name: column[1:] for (name, _), column in zip(schema, arrays)}
