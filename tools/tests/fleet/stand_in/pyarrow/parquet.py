"""A stand-in for pyarrow.parquet: its files are JSON."""

import json

import pyarrow


class Table(dict):
    def to_pylist(self):
        return [dict(zip(self, row)) for row in zip(*self.values())]


def write_table(table, path):
    schema, columns = table
    metadata = {name.decode(): said.decode() for name, said in schema.metadata.items()}
    with open(path, "w") as file:
        json.dump({"metadata": metadata, "columns": columns}, file)


def read_table(path):
    with open(path) as file:
        return Table(json.load(file)["columns"])


def read_schema(path):
    with open(path) as file:
        found = json.load(file)
    return pyarrow.schema([], {name.encode(): said.encode() for name, said in found["metadata"].items()})
