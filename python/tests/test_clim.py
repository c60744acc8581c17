"""Tests of the package. The last line is 'N passed, M failed'.

    test_clim.py [FILE..]      the samples, and these files; a bare root ends in .root
"""

import copy
import doctest
import hashlib
import json
import mmap
import os
import pathlib
import pickle
import re
import struct
import subprocess
import sys
import tempfile
import threading
import time
import unittest
import unittest.mock
import uuid
from collections.abc import Sequence

import clim
from clim import _library, rows
from clim.assembly import _KEYS, _LOOK_UPS

TOP = pathlib.Path(__file__).resolve().parents[2]
SAMPLES = TOP / "samples"
PROGRAM = TOP / "crates/clim/out/clim"
FILES = [(SAMPLES / name, name.endswith(".root")) for name in ("one_module.dll", "greeter.root", "two_types.root")]
# The types of the cells in a column.
VALUES = {
    "number": (int,),
    "text": (str,),
    "blob": (bytes,),
    "row": (clim.Token, type(None)),
    "guid": (uuid.UUID, type(None)),
}


def opened():
    """Each file, opened."""
    for path, bare in FILES:
        with clim.open(path, bare) as assembly:
            yield path, assembly


class Declared(unittest.TestCase):
    """The classes of rows and the structs are those of the library."""

    def test_each_table_has_a_class_with_its_columns(self):
        self.assertEqual(len(_library.TABLE_NAMES), 38)
        self.assertEqual(set(rows.Row.of_table), set(_library.TABLE_NAMES))
        for number, name in _library.TABLE_NAMES.items():
            its = rows.Row.of_table[number]
            self.assertEqual(its.__name__, {"Assembly": "AssemblyDef"}.get(name, name))
            cells = {it: value.name for base in its.__mro__ for it, value in vars(base).items() if isinstance(value, rows.Cell)}
            names = {it for it in cells if not it.islower()}
            self.assertEqual(names, set(_library.COLUMN_NAMES[number]), name)
            self.assertTrue(all(cells[it] == it for it in names) and set(cells.values()) == names, name)

    def test_structs(self):
        sizes = {"Bytes": 16, "FaultStruct": 16, "HeaderStruct": 96, "StreamStruct": 32, "ViewStruct": 5208, "RefusalStruct": 16}
        for name, size in sizes.items():
            self.assertEqual(_library.ctypes.sizeof(getattr(_library, name)), size)
        self.assertEqual((_library.CELL.size, _library.CELL_BYTES.size, _library.GIVEN_ROW.size), (40, 40, 24))
        self.assertEqual(_library.ITEM.size, 48)
        self.assertEqual(_library.ViewStruct.is_open.offset, 5204)

    def test_version(self):
        source = (TOP / "crates/cli_arguments/src/arguments.rt").read_text(encoding="utf-8")
        self.assertIn(f'.version("{clim.__version__}")', source)


class Opening(unittest.TestCase):
    def test_sources_are_the_same(self):
        path = SAMPLES / "one_module.dll"
        data = path.read_bytes()
        with open(path, "rb") as file, mmap.mmap(file.fileno(), 0, access=mmap.ACCESS_READ) as mapped:
            for source in (path, str(path), data, bytearray(data), memoryview(data), mapped):
                self.assertEqual(clim.open(source).module.name, "a.dll")
                self.assertIsNone(clim.check(source))
                self.assertEqual(clim.read_header(source).cb, 72)
        with clim.open(path, mmap=True) as assembly:
            self.assertEqual(assembly.module.Name, "a.dll")
            self.assertEqual(assembly.to_dict(), clim.open(data).to_dict())

    def test_bytes_that_change_are_copied(self):
        data = bytearray((SAMPLES / "one_module.dll").read_bytes())
        for source in (data, memoryview(data)):
            kept = bytes(data)
            assembly, other = clim.open(source), clim.Assembly(source)
            data[:] = bytes(len(data))
            self.assertEqual((assembly.module.Name, other.module.Name), ("a.dll", "a.dll"))
            data[:] = kept

    def test_a_file_that_changes_is_read(self):
        with tempfile.NamedTemporaryFile() as file:
            file.write((SAMPLES / "one_module.dll").read_bytes())
            file.flush()
            for mapped in (False, True):
                assembly = clim.open(file.name, mmap=mapped)
                self.assertIs(type(assembly._data), bytes)
            os.truncate(file.name, 0)
            self.assertEqual(assembly.module.Name, "a.dll")

    def test_bytes_of_other_types_say_nothing_of_their_length(self):
        class Long(bytes):
            def __len__(self):
                return 1 << 40

            def __bytes__(self):
                return self

        path = SAMPLES / "one_module.dll"
        data = Long(path.read_bytes())
        self.assertIsNone(clim.check(data))
        self.assertEqual(clim.read_header(data), clim.read_header(path))
        self.assertEqual((clim.open(data).module.Name, clim.Assembly(data).module.Name), ("a.dll", "a.dll"))
        self.assertEqual(len(clim.open(data)._data), path.stat().st_size)

        class Other(str):
            def encode(self, *_):
                return Long(b"a")

        with clim.open(SAMPLES / "greeter.root", bare=True) as assembly:
            self.assertEqual(assembly.find_type(Other("Hello"), Other("Greeter")), assembly.types[1])

    def test_an_empty_file_is_a_fault(self):
        with tempfile.NamedTemporaryFile() as file:
            with self.assertRaises(clim.Fault) as caught:
                clim.open(file.name)
            self.assertEqual(str(caught.exception), "fault 1 102 at 0: DosHeader")

    def test_a_pipe_is_read_to_its_end(self):
        data = (SAMPLES / "one_module.dll").read_bytes() + bytes(3 << 20)
        with tempfile.TemporaryDirectory() as folder:
            path = os.path.join(folder, "pipe")
            os.mkfifo(path)
            writer = threading.Thread(target=lambda: pathlib.Path(path).write_bytes(data))
            writer.start()
            with clim.open(path) as assembly:
                self.assertEqual((assembly.module.name, len(assembly._data)), ("a.dll", len(data)))
            writer.join()

    def test_a_device_without_an_end_is_too_long(self):
        with unittest.mock.patch.object(clim.assembly, "_LIMIT", 5 << 20):
            self.assertEqual(len(clim.assembly.read_source("/dev/zero")), (5 << 20) + 1)
        with tempfile.TemporaryFile() as file:
            file.truncate(1 << 33)
            with unittest.mock.patch.object(clim.assembly, "_LIMIT", 5 << 20):
                self.assertEqual(len(clim.assembly.read_source(f"/proc/self/fd/{file.fileno()}")), (5 << 20) + 1)

    def test_no_file(self):
        for call in (clim.open, clim.check, clim.read_header):
            self.assertRaises(OSError, call, SAMPLES / "no such file")
            self.assertRaises(TypeError, call, 5.0)
            # A number could be a file descriptor, which is no path.
            self.assertRaises(TypeError, call, 5)

    def test_a_fault_is_an_exception_with_its_parts(self):
        fault = clim.check(b"MZ")
        self.assertEqual((fault.layer, fault.code, fault.offset, fault.name), (1, 102, 0, "DosHeader"))
        self.assertEqual(str(fault), "fault 1 102 at 0: DosHeader")
        for same in (pickle.loads(pickle.dumps(fault)), copy.copy(fault)):
            self.assertEqual((str(same), vars(same)), (str(fault), vars(fault)))

    def test_open_and_check_agree_on_prefixes(self):
        for path, bare in FILES:
            data = path.read_bytes()
            for end in range(0, len(data), len(data) // 100 + 1):
                fault = clim.check(data[:end], bare)
                if fault is None:
                    clim.open(data[:end], bare).close()
                else:
                    with self.assertRaises(clim.Fault) as caught:
                        clim.open(data[:end], bare)
                    self.assertEqual(str(caught.exception), str(fault))

    def test_threads(self):
        data, seen = (SAMPLES / "one_module.dll").read_bytes(), []

        def read():
            for _ in range(50):
                with clim.open(data) as assembly:
                    seen.append(assembly.module.Name)

        threads = [threading.Thread(target=read) for _ in range(4)]
        for it in threads:
            it.start()
        for it in threads:
            it.join()
        self.assertEqual(seen, ["a.dll"] * 200)


class Closed(unittest.TestCase):
    def test_each_access_is_an_error(self):
        with clim.open(SAMPLES / "greeter.root", bare=True) as assembly:
            table, row = assembly.types, assembly.types[1]
            name = row.TypeName
            self.assertFalse(assembly.closed)
        self.assertTrue(assembly.closed)
        assembly.close()
        self.assertEqual(name, "Greeter")
        calls = [
            lambda: row.TypeName, lambda: row["TypeName"], lambda: row.methods, lambda: row.properties, row.cells,
            row.to_dict, lambda: row.custom_attributes, lambda: row.full_name, lambda: row.enclosing_type,
            lambda: row.members("Field"), lambda: len(table), lambda: table[0], lambda: list(table),
            lambda: table.row(1), lambda: table.column("TypeName"), lambda: table.column("Flags"),
            lambda: table.by_key(0x02000001), lambda: assembly["TypeDef"], lambda: assembly.types,
            lambda: list(assembly), lambda: assembly.version, lambda: assembly.user, lambda: assembly.heaps,
            lambda: assembly.header, lambda: assembly.find_type("", "a"), lambda: assembly.row(0x02000001),
            lambda: assembly.module, assembly.to_dict, assembly.__enter__, assembly.canonical_root, assembly.digest,
            lambda: assembly.where(0), lambda: assembly.user_string(0x70000001), lambda: assembly.difference(assembly),
            lambda: clim.compare(assembly, assembly), lambda: clim.Tables.of(assembly), lambda: name and row.Flags,
        ]
        for number, call in enumerate(calls):
            with self.subTest(call=number), self.assertRaisesRegex(ValueError, "the assembly is closed"):
                call()
        self.assertEqual((row.token, repr(row), repr(assembly)), (0x02000002, "<TypeDef 2>", "<closed assembly>"))


class ClosedByAnother(unittest.TestCase):
    """An assembly that another thread closes: what a thread reads is right, or it is an error."""

    def test_all_cells(self):
        for path, bare in FILES:
            with clim.open(path, bare) as assembly:
                wanted = {(table.name, it): tuple(table.column(it)) for table in assembly for it in table.columns}
            for delay in range(20):
                # A copy of the bytes, which nothing else keeps.
                source = memoryview(path.read_bytes())
                self.close_while_reading(clim.open(source, bare), delay / 4000, wanted)

    def close_while_reading(self, assembly, delay, wanted):
        others = []

        def read():
            try:
                while True:
                    for table in assembly:
                        table._columns_read = {}
                        others.extend((table, it) for it in table.columns if tuple(table.column(it)) != wanted[table.name, it])
                    others.extend(["no version"] * (assembly.version == ""))
                    assembly.heaps, assembly.header, assembly.find_type("no such", "type")
            except ValueError:
                pass
            except BaseException as error:
                others.append(error)

        threads = [threading.Thread(target=read) for _ in range(2)]
        for it in threads:
            it.start()
        time.sleep(delay)
        assembly.close()
        for it in threads:
            it.join()
        self.assertEqual(others, [])


class Reading(unittest.TestCase):
    def test_greeter(self):
        assembly = clim.open(SAMPLES / "greeter.root", bare=True)
        module, greeter = assembly.types
        self.assertEqual((module.full_name, greeter.full_name), ("<Module>", "Hello.Greeter"))
        self.assertEqual([it.name for it in greeter.methods], [".ctor", "Greet"])
        self.assertEqual([it.name for it in greeter.methods[1].params], ["name", "times"])
        self.assertEqual(greeter.methods[1].params[1].method, greeter.methods[1])
        self.assertEqual(greeter.methods[0].declaring_type, greeter)
        self.assertEqual((module.methods, module.fields, greeter.fields), ([], [], []))
        self.assertEqual((greeter.base, greeter.enclosing_type, greeter.nested_types), (None, None, []))
        self.assertEqual((greeter.properties, greeter.events, greeter.interfaces), ([], [], []))
        self.assertIsNone(assembly.header)
        self.assertIsNone(assembly.identity)

    def test_what_is_not_there(self):
        with clim.open(SAMPLES / "greeter.root", bare=True) as assembly:
            greeter = assembly.types[1]
            for error, text, call in (
                (KeyError, "there is no table 'TypeDefs'", lambda: assembly["TypeDefs"]),
                (KeyError, "there is no table 3", lambda: assembly.row(0x03000001)),
                (KeyError, "there is no table -1", lambda: assembly.row(-1)),
                (IndexError, "TypeDef has no row 3", lambda: assembly.row(0x02000003)),
                (IndexError, "TypeDef has no row 0", lambda: assembly.types.row(0)),
                (IndexError, "TypeDef has 2 rows, and none at index 2", lambda: assembly.types[2]),
                (IndexError, "TypeDef has 2 rows, and none at index -3", lambda: assembly.types[-3]),
                (KeyError, "TypeDef has no column 'Title'", lambda: assembly.types.column("Title")),
                (KeyError, "TypeDef has no column 'Title'", lambda: greeter["Title"]),
                (KeyError, "rows of TypeDef own no rows of Param", lambda: greeter.members("Param")),
                (AttributeError, "Title", lambda: greeter.Title),
            ):
                with self.subTest(text), self.assertRaisesRegex(error, text):
                    call()

    def test_types_of_values(self):
        for path, assembly in opened():
            for table in assembly:
                for name in table.columns:
                    kinds = {type(it) for it in table.column(name)}
                    self.assertTrue(any(kinds <= {*it} for it in [*VALUES.values(), (clim.Start,)]), (path, table, name))
                    its = getattr(table[0], name)
                    if isinstance(its, clim.Signature):
                        self.assertEqual((its.row, bytes(its)), (table[0], table.column(name)[0]))
                    else:
                        self.assertEqual(its, table.column(name)[0])

    def test_cells_are_those_of_single_calls(self):
        for path, assembly in opened():
            for table in assembly:
                for number, row in enumerate(table, 1):
                    for column, name in enumerate(table.columns):
                        if len(table) < 500 or number % 97 == 1:
                            self.assertEqual(row[name], self.single(assembly, table.number, number, column), (path, row))

    def single(self, assembly, table, number, column):
        """A cell, by a call of clim_cell_at."""
        cell = bytearray(_library.NO_CELL)
        at = _library.ctypes.addressof(_library.ctypes.c_char.from_buffer(cell))
        self.assertTrue(_library.library.clim_cell_at(assembly._view(), table, number, column, at))
        return list(assembly._values(cell))[0]

    def test_columns_are_read_in_parts(self):
        for path, bare in FILES:
            with clim.open(path, bare) as assembly, unittest.mock.patch.object(clim.assembly, "_CELLS", 7):
                for table in assembly:
                    names = table.columns[:: len(table) // 1000 + 1]
                    self.assertTrue(all(len(table.column(it)) == len(table) for it in names))
                    self.assertTrue(all(table[-1][it] == self.single(assembly, table.number, len(table), table.columns.index(it)) for it in names))

    def test_runs_and_owners(self):
        for path, assembly in opened():
            for owners, member, attribute, owner in (
                (assembly.types, "Field", "fields", "declaring_type"),
                (assembly.types, "MethodDef", "methods", "declaring_type"),
                (assembly.methods, "Param", "params", "method"),
            ):
                members = []
                for row in owners:
                    members += getattr(row, attribute)
                    self.assertEqual(getattr(row, attribute), row.members(member), (path, row))
                    self.assertTrue(all(getattr(it, owner) == row for it in getattr(row, attribute)[::50]))
                self.assertEqual(members, list(assembly[member]))

    def test_look_ups(self):
        for path, assembly in opened():
            for row in assembly.types[::97]:
                found = assembly.find_type(row.namespace, row.name)
                self.assertLessEqual(found.number, row.number)
                self.assertEqual((found.namespace, found.name), (row.namespace, row.name))
                self.assertTrue(all(it.enclosing_type == row for it in row.nested_types))
                self.assertTrue(all(it.token.table == 0x17 for it in row.properties), path)
                self.assertTrue(all(it.Parent == row.token and it.parent == row for it in row.custom_attributes))
            self.assertIsNone(assembly.find_type("no such", "type"))
            by_parent = {}
            for row in assembly.custom_attributes:
                by_parent.setdefault(row.Parent, []).append(row)
                self.assertIsInstance(row.name, str)
            for parent, attributes in list(by_parent.items())[:: len(by_parent) // 200 + 1]:
                self.assertEqual(assembly.row(parent).custom_attributes, attributes)

    def test_relations_are_those_of_a_scan(self):
        def scan(table, column, token):
            cells = assembly[table].column(column)
            return [assembly[table][index] for index, it in enumerate(cells) if it == token]

        def tokens(rows_):
            return [it.token for it in rows_]

        for path, assembly in opened():
            for row in assembly.types[:: len(assembly.types) // 30 + 1]:
                self.assertEqual(row.base.token if row.base else None, row.Extends, path)
                self.assertEqual(tokens(row.interfaces), [it.Interface for it in scan("InterfaceImpl", "Class", row.token)])
                self.assertEqual(row.generic_params, scan("GenericParam", "Owner", row.token))
                self.assertEqual([row.layout][: row.layout is not None], scan("ClassLayout", "Parent", row.token)[:1])
                nested = scan("NestedClass", "EnclosingClass", row.token)
                self.assertEqual(tokens(row.nested_types), [it.NestedClass for it in nested])
                outer = [it.EnclosingClass for it in scan("NestedClass", "NestedClass", row.token)][:1]
                self.assertEqual(outer, tokens(filter(None, [row.enclosing_type])))
                for name, members in (("Property", row.properties), ("Event", row.events)):
                    maps = scan(f"{name}Map", "Parent", row.token)
                    self.assertEqual(members, maps[0].members(name) if maps else [])
                    self.assertTrue(all(it.semantics == scan("MethodSemantics", "Association", it.token) for it in members))
            for name, attribute, table, column in (
                ("Field", "constant", "Constant", "Parent"), ("Param", "constant", "Constant", "Parent"),
                ("MethodDef", "import_map", "ImplMap", "MemberForwarded"),
            ):
                for row in assembly[name][:: len(assembly[name]) // 30 + 1]:
                    found = getattr(row, attribute)
                    self.assertEqual(scan(table, column, row.token)[:1], [found] if found else [])
            for row in assembly["GenericParam"][:: len(assembly["GenericParam"]) // 30 + 1]:
                constraints = scan("GenericParamConstraint", "Owner", row.token)
                self.assertEqual(tokens(row.constraints), [it.Constraint for it in constraints])

    def test_each_attribute_leads_to_its_row(self):
        leads = {
            "TypeRef": {"scope": "ResolutionScope"}, "MemberRef": {"parent": "Class"}, "Event": {"type": "EventType"},
            "CustomAttribute": {"parent": "Parent", "constructor": "Type"}, "MethodSemantics": {"method": "Method"},
            "ImplMap": {"module": "ImportScope"}, "ExportedType": {"implementation": "Implementation"},
            "ManifestResource": {"implementation": "Implementation"},
        }
        for _, assembly in opened():
            for table in assembly:
                for row in table[:: len(table) // 30 + 1]:
                    for name, column in leads.get(table.name, {}).items():
                        its = getattr(row, name)
                        self.assertEqual(its.token if its else None, row[column])
                    needs = {"declaration": "clim_declaration", "arguments": "clim_attribute_items"}
                    for name in dir(row):
                        if not name.startswith("_") and clim.supports(needs.get(name, "clim_open")):
                            getattr(row, name)

    def test_many_look_ups_find_the_same_rows(self):
        for _, assembly in opened():
            for table in assembly:
                keys = {*table.column(_KEYS[table.name]), 0x02000000} if table.name in _KEYS else {0x02000001}
                for key in [*keys][:500]:
                    found = []
                    for table._look_ups in (0, _LOOK_UPS):
                        found.append([it.number for it in table.by_key(key)])
                    self.assertEqual(*found)

    def test_names_of_nested_types(self):
        for _, assembly in opened():
            for row in assembly.types[::31]:
                names, outer = [], row
                while outer is not None and len(names) < 64:
                    names.insert(0, ".".join(filter(None, (outer.namespace, outer.name))))
                    outer = outer.enclosing_type
                self.assertEqual(row.full_name, "/".join(names if outer is None else ["..", *names]))

    def test_a_circle_of_scopes_ends(self):
        class Circle(rows.TypeRef):
            namespace, name = "", "a"
            enclosing_type = property(lambda row: row)

        self.assertEqual(Circle(None, 1).full_name, "/".join(["..", *["a"] * rows.DEPTH]))

    def test_tables_and_rows(self):
        assembly = clim.open(SAMPLES / "greeter.root", bare=True)
        types = assembly["TypeDef"]
        self.assertIs(types, assembly[2])
        self.assertEqual([it.name for it in assembly], ["TypeDef", "MethodDef", "Param"])
        self.assertEqual((types[0].number, types[-1].number, types[0:5:2]), (1, 2, [types.row(1)]))
        for error, call in (
            (IndexError, lambda: types.row(0)), (IndexError, lambda: types.row(3)), (IndexError, lambda: types[2]),
            (KeyError, lambda: assembly["NoTable"]), (KeyError, lambda: assembly[3]), (KeyError, lambda: types.column("Name")),
            (KeyError, lambda: types[0]["Name"]), (AttributeError, lambda: types[0].Name), (KeyError, lambda: types[0]["name"]),
            (KeyError, lambda: types[0].members("TypeDef")), (KeyError, lambda: types[0].members("NoTable")),
            (IndexError, lambda: assembly.row(0x02000003)), (KeyError, lambda: assembly.row(0x03000001)),
            (AttributeError, lambda: setattr(types[0], "TypeName", "a")),
        ):
            self.assertRaises(error, call)
        self.assertEqual(types[1], assembly.row(types[1].token))
        self.assertNotEqual(types[1], types[0])
        self.assertNotEqual(types[1], assembly["MethodDef"][1])
        self.assertEqual(len({types[1], types.row(2)}), 1)

    def test_tokens(self):
        token = clim.Token.of(2, 5)
        self.assertEqual((token, token.table, token.row, repr(token)), (0x02000005, 2, 5, "Token(0x02000005)"))
        for table, row in (2, 1 << 24), (2, -1), (256, 1), (-1, 1):
            self.assertRaises(ValueError, clim.Token.of, table, row)

    def test_dicts_are_json(self):
        for path, assembly in opened():
            if path.is_relative_to(SAMPLES) if hasattr(path, "is_relative_to") else True:
                whole = json.loads(json.dumps(assembly.to_dict()))
                self.assertEqual(set(whole["tables"]), {it.name for it in assembly})
        module = clim.open(SAMPLES / "one_module.dll").module.to_dict()
        mvid = "03020100-0504-0706-0809-0a0b0c0d0e0f"
        wanted = {"token": 1, "Generation": 0, "Name": "a.dll", "Mvid": mvid, "EncId": None, "EncBaseId": None}
        self.assertEqual(module, wanted)

    def test_heaps(self):
        for path, assembly in opened():
            heaps, root = assembly.heaps, path.read_bytes()
            if assembly.header:
                root = root[assembly.header.root_start : assembly.header.root_end]
            self.assertEqual(heaps.get("#US", b""), assembly.user)
            streams = list(clim.assembly._read_streams(assembly._data, assembly.header.root_start if assembly.header else 0))
            self.assertEqual(set(heaps), {name for name, _, _ in streams} & set(clim.assembly._STREAMS))
            if clim.supports("clim_stream"):
                self.assertEqual(list(self.streams_of(assembly)), streams)
            self.assertTrue(all(it in root for it in heaps.values()))
            names = set(heaps["#Strings"].split(b"\0"))
            self.assertIn((assembly.module or assembly.types[1]).name.encode(), names)


    def streams_of(self, assembly):
        """The stream headers, by calls of clim_stream."""
        for index in range(_library.library.clim_stream_count(assembly._view())):
            it = _library.StreamStruct(name=_library.Bytes(_library.EMPTY_AT, 0))
            self.assertTrue(_library.library.clim_stream(assembly._view(), index, _library.byref(it)))
            yield _library.ctypes.string_at(it.name.at, it.name.len).decode("ascii"), it.offset, it.size


class Numbers(unittest.TestCase):
    """Numbers that a call of the library would cut."""

    def test_budgets(self):
        path = SAMPLES / "greeter.root"
        for call in (clim.open, clim.check):
            for budget in (-1, 1 << 64, -(1 << 64), 1 << 100):
                self.assertRaises(ValueError, call, path, True, budget=budget)
            self.assertRaises(TypeError, call, path, True, budget=1.0)
            self.assertRaises(TypeError, call, path, True, budget="1")
            if clim.supports("clim_check_within"):
                call(path, True, budget=(1 << 64) - 1)

    def test_tokens(self):
        with clim.open(SAMPLES / "greeter.root", bare=True) as assembly:
            for token in (-1, 1 << 32, 0x1_0200_0002, 1 << 64 | 0x02000002, -(1 << 32) | 0x02000002):
                self.assertRaises(KeyError, assembly.row, token)
                self.assertRaises(ValueError, assembly.custom_attributes.by_key, token)
                self.assertRaises(KeyError, assembly.user_string, token)
            self.assertRaises(KeyError, assembly.user_string, 0x1_7000_0000)
            self.assertRaises(KeyError, lambda: assembly[0x102])
            self.assertEqual(assembly.custom_attributes.by_key(0xFF000001), [])
            for offset in (-1, 1 << 64, 1 << 64 | 116):
                if clim.supports("clim_where"):
                    self.assertIsNone(assembly.where(offset))

    def test_rows(self):
        with clim.open(SAMPLES / "greeter.root", bare=True) as assembly:
            for number in (0, -1, 3, 1 << 32 | 1):
                row = rows.TypeDef(assembly.types, number)
                self.assertRaises(IndexError, row.members, "Field")
                self.assertRaises(IndexError, assembly.types.row, number)
                signature = clim.Signature._of(b"", rows.MethodDef(assembly.methods, number), "Signature")
                self.assertRaises(IndexError, lambda: signature.text)

    def test_codes(self):
        if clim.supports("clim_explain"):
            for code in (-1, 0x10066, 1 << 64 | 102):
                self.assertEqual(clim.Fault(1, code, 0, "").explanation, "")
                self.assertEqual(clim.Refusal(code, "").explanation, "")


class Overlapping(unittest.TestCase):
    """Names of a crafted root that are parts of one text, and have 600 times the bytes of the root."""

    def root(self):
        rows_ = b"".join(struct.pack("<3H", 0, name, 0) for name in range(1, 4001))
        tables = struct.pack("<IBBBBQQI", 0, 2, 0, 0, 1, 1 << 1, 0x16003301FA00, 4000) + rows_
        strings = b"\0" + b"x" * 7000 + b"\0\0\0"
        version = struct.pack("<IHHII", 0x424A5342, 1, 1, 0, 12) + b"v4.0.30319\0\0"
        streams = struct.pack("<HHII", 0, 2, 64, len(tables)) + b"#~\0\0"
        streams += struct.pack("<II", 64 + len(tables), len(strings)) + b"#Strings\0\0\0\0"
        return version + streams + tables + strings

    def test_a_column_is_not_read_at_once(self):
        root = self.root()
        self.assertEqual(len(root), 31096)
        with clim.open(root, bare=True) as assembly:
            names = assembly.type_refs.column("TypeName")
            self.assertIsInstance(names, clim.assembly.Texts)
            self.assertEqual(assembly._texts, {})
            self.assertEqual((len(names), len(names[0]), len(names[-1])), (4000, 7000, 3001))
            self.assertEqual([len(it) for it in names[1:4]], [6999, 6998, 6997])
            self.assertEqual(assembly.type_refs[9].name, "x" * 6991)
            self.assertRaises(IndexError, lambda: names[4000])
            self.assertEqual(assembly.type_refs.column("TypeNamespace"), ("",) * 4000)
        self.assertRaises(ValueError, lambda: names[0])

    def test_tables_read_their_cells_when_they_are_used(self):
        with clim.open(self.root(), bare=True) as assembly:
            tables, names = clim.Tables.of(assembly), list(assembly.type_refs.column("TypeName"))
            cells = [row.cells() for row in assembly.type_refs]
        its = tables["TypeRef"]
        self.assertEqual([row["TypeName"] for row in its], names)
        self.assertEqual((its, dict(its[0]), repr(its[0])), (cells, cells[0], repr(cells[0])))
        self.assertEqual((len(its[0]), list(its[0]), "TypeName" in its[0], its[0].get("Title")), (3, [*cells[0]], True, None))
        if clim.supports("clim_tables"):
            self.check_root(tables, names)

    def check_root(self, tables, names):
        its, others = tables["TypeRef"], clim.Tables()
        its[3]["TypeName"] = names[3] = "changed"
        its[4].update(TypeNamespace=names[5])
        # A row may be moved to other tables.
        others["TypeRef"].append(its[0])
        with clim.open(tables.root(), bare=True) as assembly:
            self.assertEqual(list(assembly.type_refs.column("TypeName")), names)
            self.assertEqual(assembly.type_refs[4].namespace, names[5])
        del its[:]
        with clim.open(others.root(), bare=True) as assembly:
            self.assertEqual(assembly.type_refs.column("TypeName"), (names[0],))
        del others["TypeRef"][0]["TypeName"]
        self.assertEqual(list(others["TypeRef"][0]), ["ResolutionScope", "TypeNamespace"])
        self.assertRaises(KeyError, others.root)

    def test_a_blob_is_no_number(self):
        with clim.open(self.root(), bare=True) as assembly:
            blobs, tables = clim.assembly.Blobs(assembly, [assembly._at], [4]), clim.Tables()
            tables["Constant"].append(clim.tables._SharedRow({"Type": blobs, "Parent": [None], "Value": blobs}, 0))
            self.assertRaisesRegex(TypeError, "^Constant 1 Type: ", tables.root)


class Features(unittest.TestCase):
    def test_what_the_library_has(self):
        self.assertTrue(clim.supports("clim_open"))
        self.assertFalse(clim.supports("no_such_function"))

    def lacks(self, function, call):
        """Whether the library lacks a function. Then a call of it says so."""
        if clim.supports(function):
            return False
        with self.assertRaises(clim.Unsupported) as caught:
            call()
        self.assertEqual(caught.exception.function, function)
        self.assertIn(f"has no function {function}", str(caught.exception))
        return True

    def test_budget(self):
        path = SAMPLES / "greeter.root"
        if not self.lacks("clim_open_root_within", lambda: clim.open(path, True, budget=0)):
            self.assertRaises(clim.BudgetSpent, clim.open, path, True, budget=0)
            self.assertEqual(len(clim.open(path, True, budget=1 << 30).types), 2)
            self.assertRaises(clim.Fault, clim.open, b"", budget=0)
        if not self.lacks("clim_check_root_within", lambda: clim.check(path, True, budget=0)):
            self.assertRaises(clim.BudgetSpent, clim.check, path, True, budget=0)
            self.assertIsNone(clim.check(path, True, budget=1 << 30))
            self.assertEqual(clim.check(b"", budget=0).code, 102)

    def test_explanation(self):
        fault = clim.check(b"")
        if not self.lacks("clim_explain", lambda: fault.explanation):
            self.assertTrue(fault.explanation.startswith("102 DosHeader: "), fault.explanation)
            # The program breaks lines, and says the same.
            listed = subprocess.run([PROGRAM, "explain"], stdout=subprocess.PIPE, check=True, text=True).stdout
            for code in map(int, re.findall(r"^(\d+)", listed, re.M)):
                explained = subprocess.run([PROGRAM, "explain", str(code)], stdout=subprocess.PIPE, check=True, text=True)
                self.assertEqual(clim.Fault(0, code, 0, "").explanation.split(), explained.stdout.split())

    def test_text_of_a_signature(self):
        with clim.open(SAMPLES / "greeter.root", bare=True) as assembly:
            signature = assembly.methods[1].signature
            if not self.lacks("clim_signature_text", lambda: signature.text):
                self.assertIn("string", signature.text)
                self.assertIn("int32", signature.text)
        self.assertRaises(ValueError, lambda: signature.text)
        self.assertRaises(ValueError, lambda: clim.Signature(b"").text)
        for path, assembly in opened():
            for table in assembly:
                for row in table[:: len(table) // 50 + 1]:
                    for cell in row.cells().values():
                        if isinstance(cell, clim.Signature) and clim.supports("clim_signature_text"):
                            self.assertNotEqual(cell.text, "", (path, row))

    def test_canonical_root(self):
        for path, assembly in opened():
            if self.lacks("clim_canonical_root", assembly.canonical_root):
                self.assertTrue(self.lacks("clim_digest", assembly.digest))
                continue
            root, digest = assembly.canonical_root(), assembly.digest()
            self.assertEqual(digest, hashlib.sha256(root).digest(), path)
            with clim.open(root, bare=True) as again:
                self.assertEqual((again.canonical_root(), again.digest()), (root, digest), path)
                self.assertEqual(again.types.column("TypeName"), assembly.types.column("TypeName"), path)
                self.assertEqual(again.version, assembly.version)
        self.assertRaises(ValueError, assembly.canonical_root)
        self.assertRaises(ValueError, assembly.digest)

    def test_lengths_of_a_canonical_root(self):
        self.assertEqual(_library.canonical_length(1 << 30), 1 << 30)
        self.assertRaises(OverflowError, _library.canonical_length, _library.TOO_LONG)
        self.assertRaises(MemoryError, _library.canonical_length, _library.NO_MEMORY)

    def test_where(self):
        for path, assembly in opened():
            if self.lacks("clim_where", lambda: assembly.where(0)):
                continue
            start = 0 if assembly.header is None else assembly.header.root_start
            with open(path, "rb") as file:
                root = file.read()[start:]
            # Of a larger root the first part. Its end may cut a cell in two, of which this part has the first bytes.
            end = min(len(root), 1 << 15)
            found = [it for it in map(assembly.where, range(end)) if it]
            cells = set(found)
            self.assertEqual(len(found), sum(min(it.size, end - it.offset) for it in cells), path)
            if end == len(root):
                self.assertEqual(len(cells), sum(len(table) * len(table.columns) for table in assembly), path)
            for it in cells:
                row, number = assembly[it.table].row(it.row), root[it.offset : it.offset + it.size]
                cell = getattr(row, it.column)
                if isinstance(cell, int) and not isinstance(cell, (clim.Start, clim.Token)):
                    self.assertEqual(int.from_bytes(number, "little"), cell, (path, it))
            for offset in (-1, 0, 1 << 31, 1 << 64):
                self.assertIsNone(assembly.where(offset), path)
        self.assertRaises(ValueError, assembly.where, 0)

    def test_compare(self):
        names = ["one_module.root", "two_types.root", "greeter.root", "empty.root"]
        every = [clim.open(SAMPLES / name, bare=True) for name in names]
        if not self.lacks("clim_compare", lambda: clim.compare(every[0], every[1])):
            for left in every:
                for right in every:
                    it = clim.compare(left, right)
                    self.assertEqual(it is None, left.canonical_root() == right.canonical_root())
                    if it and it.counts:
                        self.assertEqual(it.counts, (len(left[it.table]), len(right[it.table])))
            changed = bytearray(every[0].canonical_root())
            with clim.open(bytes(changed), bare=True) as same:
                self.assertIsNone(clim.compare(every[0], same))
                changed[same.where(next(i for i in range(len(changed)) if same.where(i))).offset] ^= 1
            with clim.open(bytes(changed), bare=True) as other:
                self.assertEqual(clim.compare(every[0], other), clim.Difference("cell", "Module", 1, "Generation"))
                changed[16] ^= 1
                with clim.open(bytes(changed), bare=True) as another:
                    self.assertEqual(clim.compare(other, another), clim.Difference("version"))
            with clim.open(self.with_user_strings(), bare=True) as strings:
                self.assertEqual(clim.compare(strings, every[3]).kind in ("version", "user strings"), True)
            self.assertRaises(ValueError, clim.compare, every[0], other)
        for assembly in every:
            assembly.close()

    def test_user_string(self):
        with clim.open(self.with_user_strings(), bare=True) as assembly:
            if not self.lacks("clim_user_string", lambda: assembly.user_string(0x70000001)):
                self.assertEqual(assembly.user_string(0x70000001), "A")
                self.assertEqual(assembly.user_string(0x70000005), "\ud800" + "b" * 1000)
                for token in (0x7000FFFF, 0x70FFFFFF, 0x02000001, 1):
                    self.assertRaises(KeyError, assembly.user_string, token)

    def with_user_strings(self):
        """A root with no rows and two user strings, the second with a surrogate that has no partner."""
        long = b"\x00\xd8" + "b".encode("utf-16-le") * 1000 + b"\0"
        user = b"\0\x03A\0\0" + struct.pack(">H", 0x8000 | len(long)) + long
        user += bytes(-len(user) % 4)
        version = struct.pack("<IHHII", 0x424A5342, 1, 1, 0, 4) + b"v\0\0\0"
        streams = struct.pack("<HHII", 0, 2, 48, 24) + b"#~\0\0" + struct.pack("<II", 72, len(user)) + b"#US\0"
        return version + streams + struct.pack("<IBBBBQQ", 0, 2, 0, 0, 1, 0, 0x16003301FA00) + user


class Names(unittest.TestCase):
    """Names, declarations, addresses and constants."""

    PATH = SAMPLES / "members.dll"

    def lacks(self, *functions):
        """Whether the library lacks one of some functions. Then the calls say so."""
        missing = [it for it in functions if not clim.supports(it)]
        if missing:
            with clim.open(self.PATH) as assembly:
                for call in (
                    lambda: assembly.name_of(0x02000001),
                    lambda: assembly.declaration(0x02000001),
                    lambda: assembly.bytes_at(0, 0),
                    lambda: clim.offset_of(self.PATH, 0, 0),
                ):
                    self.assertRaises(clim.Unsupported, call)
        return bool(missing)

    def test_names_and_declarations(self):
        if self.lacks("clim_row_name", "clim_declaration"):
            return
        for path, assembly in opened():
            for table in assembly:
                for row in table:
                    name = assembly.name_of(row.token)
                    self.assertTrue(name and name.isascii(), path)
                    if not isinstance(row, (rows.TypeDef, rows.Field, rows.MethodDef, rows.Property)):
                        self.assertFalse(hasattr(row, "declaration"))
                        self.assertRaises(KeyError, assembly.declaration, row.token)
                    elif isinstance(row, rows.TypeDef):
                        self.assertEqual(row.declaration, name)
                    elif isinstance(row, rows.Field):
                        own = name.rpartition("::")[2]
                        self.assertTrue(row.declaration.endswith(f" {own}") and (own == row.name or own[0] == "'"), path)
                    else:
                        self.assertIn(name, row.declaration)
            for token, error in ((0x02000000, IndexError), (0x02FFFFFF, IndexError), (0x70000001, KeyError), (-1, KeyError), (1 << 32, KeyError)):
                self.assertRaises(error, assembly.name_of, token)
                self.assertRaises(error, assembly.declaration, token)
        with clim.open(SAMPLES / "greeter.root", bare=True) as assembly:
            self.assertEqual(assembly.name_of(0x02000001), "'<Module>'")
            self.assertEqual(assembly.types[1].methods[1].declaration, "string Hello.Greeter::Greet(string name, int32 times)")
            greet = assembly.methods[1]
        self.assertRaises(ValueError, lambda: greet.declaration)
        self.assertRaises(ValueError, assembly.name_of, 0x02000001)

    def test_a_text_that_is_too_long(self):
        if self.lacks("clim_row_name", "clim_declaration") or not clim.supports("clim_tables"):
            return
        for length, error in ((65536, None), (65537, OverflowError)):
            tables = clim.Tables()
            # Names of more than 1,023 bytes are quoted.
            tables.add("TypeDef", TypeName="a" * (length - 2))
            with clim.open(tables.root(), bare=True) as assembly:
                if error is None:
                    self.assertEqual(len(assembly.types[0].declaration), length)
                else:
                    self.assertRaises(error, assembly.name_of, 0x02000001)
                    self.assertRaises(error, assembly.declaration, 0x02000001)

    def test_memory_that_runs_out(self):
        with clim.open(self.PATH) as assembly:
            out = unittest.mock.Mock(return_value=_library.NO_MEMORY)
            self.assertRaises(MemoryError, assembly._row_text, out, assembly.types[0])

    def test_types_by_their_full_names(self):
        for path, assembly in opened():
            for its in assembly.types:
                found = assembly.find_type(its.full_name)
                # Of a name that is too long the outermost types are not known.
                if its.full_name.startswith("../"):
                    self.assertIsNone(found, path)
                else:
                    self.assertEqual(found.full_name, its.full_name, path)
            for name in ("", "/", "No.Type", "No/Type", "Greeter", "Hello.Greeter/", "/Hello.Greeter", "/" * 1000):
                self.assertIsNone(assembly.find_type(name), path)
        with clim.open(SAMPLES / "greeter.root", bare=True) as assembly:
            greeter = assembly.types[1]
            self.assertEqual(assembly.find_type("Hello.Greeter"), greeter)
            self.assertEqual(assembly.find_type("Hello", "Greeter"), greeter)
            self.assertEqual(assembly.find_type(namespace="Hello", name="Greeter"), greeter)

    def test_a_nested_type_is_not_one_of_its_name(self):
        if not clim.supports("clim_tables"):
            return
        tables = clim.Tables()
        outer = [tables.add("TypeDef", TypeName=name, TypeNamespace="N") for name in ("A", "B")]
        inner = [tables.add("TypeDef", TypeName="Inner") for _ in outer]
        alone = tables.add("TypeDef", TypeName="Inner")
        deep = tables.add("TypeDef", TypeName="Deep", TypeNamespace="N.M")
        for pair in (*zip(inner, outer), (deep, inner[1])):
            tables.add("NestedClass", *pair)
        with clim.open(tables.root(), bare=True) as assembly:
            wanted = {"N.A/Inner": inner[0], "N.B/Inner": inner[1], "Inner": alone, "N.B/Inner/N.M.Deep": deep}
            self.assertEqual({name: assembly.find_type(name).token for name in wanted}, wanted)
            self.assertEqual([assembly.row(it).full_name for it in wanted.values()], list(wanted))
            self.assertIsNone(assembly.find_type("N.A/Inner/N.M.Deep"))

    def test_a_full_name_is_that_of_any_type_with_it(self):
        if not clim.supports("clim_tables"):
            return
        tables = clim.Tables()
        outer = [tables.add("TypeDef", TypeName="A", TypeNamespace="N") for _ in range(3)]
        inner = [tables.add("TypeDef", TypeName="Inner", TypeNamespace="") for _ in range(2)]
        chain = [tables.add("TypeDef", TypeName="C") for _ in range(100)]
        for pair in (*zip(inner, outer[1:]), *zip(chain[1:], chain)):
            tables.add("NestedClass", *pair)
        with clim.open(tables.root(), bare=True) as assembly:
            # The first type with the name has no nested type, and a name of any length is found.
            wanted = {"N.A": outer[0], "N.A/Inner": inner[0], "/".join("C" * 100): chain[-1], "C": chain[0]}
            self.assertEqual({name: assembly.find_type(name).token for name in wanted}, wanted)
            for name in ("N.A/N.Inner", "N.A/.Inner/", "A/Inner", "/".join("C" * 101), "Inner"):
                self.assertIsNone(assembly.find_type(name), name)

    def test_long_names_are_read_if_their_lengths_fit(self):
        if not clim.supports("clim_tables"):
            return
        tables = clim.Tables()
        # Endings of one text, which together are longer than the root.
        names = ["a" * length + "\u00e4" for length in range(2000, 0, -1)]
        rows = [tables.add("TypeDef", TypeName=name) for name in names]
        tables.add("NestedClass", rows[-1], rows[0])
        with clim.open(tables.root(), bare=True) as assembly:
            self.assertIsInstance(assembly.types.column("TypeName"), Sequence)
            self.assertNotIsInstance(assembly.types.column("TypeName"), tuple)
            self.assertEqual(assembly.find_type(f"{names[0]}/{names[-1]}").token, rows[-1])
            self.assertIsNone(assembly.find_type(f"{names[1]}/{names[-1]}"))

    def test_addresses(self):
        if self.lacks("clim_offset_of"):
            return
        data, header = self.PATH.read_bytes(), clim.read_header(self.PATH)
        rva, size = header.metadata
        self.assertEqual(clim.offset_of(self.PATH, rva, size), header.root_start)
        self.assertEqual(clim.offset_of(bytearray(data), rva, 0), header.root_start)
        for at in ((0, 1), (rva, size + len(data)), (0xFFFFFFFF, 0xFFFFFFFF)):
            self.assertIsNone(clim.offset_of(data, *at))
        self.assertIsNone(clim.offset_of(b"", rva, size))
        self.assertIsNone(clim.offset_of(data[: header.root_end - 1], rva, size))
        with clim.open(data) as assembly:
            self.assertEqual(assembly.bytes_at(rva, size), data[header.root_start : header.root_end])
            self.assertTrue(all(len(assembly.bytes_at(it.RVA, 1)) == 1 for it in assembly.methods if it.RVA))
            self.assertEqual((assembly.bytes_at(rva, 0), assembly.bytes_at(0, 1)), (b"", None))
            for at in ((-1, 1), (1, -1), (1 << 32, 1), (1, 1 << 32)):
                self.assertRaises(ValueError, assembly.bytes_at, *at)
                self.assertRaises(ValueError, clim.offset_of, data, *at)
            self.assertRaises(TypeError, assembly.bytes_at, 1.5, 1)
        self.assertRaises(ValueError, assembly.bytes_at, rva, size)
        with clim.open(SAMPLES / "greeter.root", bare=True) as assembly:
            self.assertRaises(ValueError, assembly.bytes_at, rva, 4)

    def test_flags(self):
        with clim.open(SAMPLES / "greeter.root", bare=True) as assembly:
            constructor, greet = assembly.methods
            self.assertEqual(greet.flags, greet.Flags)
            self.assertEqual(greet.flags & ~7, clim.MethodFlags.STATIC | clim.MethodFlags.HIDE_BY_SIG)
            self.assertIn(clim.MethodFlags.RT_SPECIAL_NAME, constructor.flags)
            self.assertTrue(all(int(it.flags) == it.Flags for table in ("TypeDef", "Field", "MethodDef", "Param") for it in assembly[table]))
            self.assertEqual((greet.flags.access, greet.impl_flags.code_type), (clim.Access.PUBLIC, clim.CodeType.IL))
        kinds = [it for it in vars(clim).values() if isinstance(it, type) and it.__name__.endswith("Flags")]
        self.assertEqual(len(kinds), 12)
        for flags in kinds:
            self.assertTrue(all(bin(it).count("1") == 1 for it in flags))
            self.assertEqual(int(flags((1 << 32) - 1)), (1 << 32) - 1)

    def test_flags_of_each_table(self):
        with clim.open(self.PATH) as assembly:
            for table, name, cell in (
                ("Event", "flags", "EventFlags"), ("Property", "flags", "Flags"), ("MethodSemantics", "flags", "Semantics"),
                ("ImplMap", "flags", "MappingFlags"), ("GenericParam", "flags", "Flags"), ("Assembly", "flags", "Flags"),
                ("AssemblyRef", "flags", "Flags"), ("MethodDef", "impl_flags", "ImplFlags"),
            ):  # fmt: skip
                self.assertEqual([int(getattr(it, name)) for it in assembly[table]], list(assembly[table].column(cell)))
            header = assembly.header
            self.assertEqual((header.flags, repr(header.entry_point_token)), (clim.HeaderFlags.IL_ONLY, "Token(0x00000000)"))

    def test_choices_in_flags(self):
        for flags, wanted in (
            (clim.TypeFlags(0x10).layout, clim.Layout.EXPLICIT), (clim.TypeFlags(0x18).layout, None),
            (clim.TypeFlags(0x105).visibility, clim.Visibility.NESTED_ASSEMBLY), (clim.FieldFlags(0x11).access, clim.Access.PRIVATE),
            (clim.MethodFlags(7).access, None), (clim.ImportFlags(0x346).call_conv, clim.CallConv.STD_CALL),
            (clim.ImportFlags(0x346).char_set, clim.CharSet.AUTO), (clim.ImportFlags(0).call_conv, None),
            (clim.GenericParamFlags(2).variance, clim.Variance.CONTRAVARIANT), (clim.GenericParamFlags(3).variance, None),
        ):  # fmt: skip
            self.assertIs(flags, wanted)

    def test_flags_remember_few_values(self):
        for bits in range(0, 1 << 20, 0x333):
            self.assertEqual(int(clim.TypeFlags(bits)), bits)
        self.assertLess(len(clim.TypeFlags._value2member_map_), 1000)

    def test_constants(self):
        value = clim.values.constant_of
        for type_, form, number in (
            (0x04, "<b", -1), (0x05, "<B", 255), (0x06, "<h", -2), (0x07, "<H", 65534), (0x08, "<i", -3), (0x09, "<I", 1 << 31),
            (0x0A, "<q", -4), (0x0B, "<Q", 1 << 63), (0x0C, "<f", 1.5), (0x0D, "<d", -1e300),
        ):
            found = value(type_, struct.pack(form, number))
            self.assertEqual((found, type(found)), (number, type(number)))
            self.assertEqual(value(type_, struct.pack(form, number) + b"\0"), struct.pack(form, number) + b"\0")
        self.assertEqual((value(0x02, b"\1"), value(0x02, b"\0")), (True, False))
        self.assertEqual((value(0x03, b"A\0"), value(0x0E, b"a\0\x41\xd8"), value(0x0E, b"")), ("A", "a\ud841", ""))
        self.assertIsNone(value(0x12, bytes(4)))
        for type_, blob in ((0x02, b"\2"), (0x02, b""), (0x03, b"A"), (0x0E, b"abc"), (0x12, b"\1\0\0\0"), (0, b"a"), (1 << 31, b"")):
            self.assertEqual(value(type_, blob), blob)
        if clim.supports("clim_tables"):
            tables = clim.Tables()
            tables.add("TypeDef", TypeName="a")
            field = tables.add("Field", Flags=0x56, Name="count", Signature=b"\x06\x08")
            tables.add("Constant", 8, field, struct.pack("<i", -7))
            with clim.open(tables.root(), bare=True) as assembly:
                constant = assembly.fields[0].constant
                self.assertEqual((constant.value, constant.parent), (-7, assembly.fields[0]))


class Arguments(unittest.TestCase):
    """The arguments of custom attributes."""

    def setUp(self):
        if not clim.supports("clim_attribute_items") or not clim.supports("clim_tables"):
            with clim.open(SAMPLES / "shapes.dll") as assembly:
                with self.assertRaises(clim.Unsupported) as caught:
                    assembly.custom_attributes[0].arguments
            self.assertEqual(caught.exception.function, "clim_attribute_items")
            self.skipTest("the library is older")

    def made(self, *attributes):
        """An assembly with attributes, each given by the parameters of its constructor and by its value."""
        tables = clim.Tables()
        module = tables.add("Module", Name="one.dll")
        mark = tables.add("TypeRef", module, "Mark", "Hello")
        tables.add("TypeRef", module, "Type", "System")
        enum = tables.add("TypeRef", module, "Enum", "System")
        tables.add("TypeDef", TypeName="<Module>")
        tables.add("TypeDef", TypeName="Color", Extends=enum)
        tables.add("Field", Flags=6, Name="value__", Signature=b"\x06\x06")
        for parameters, value in attributes:
            constructor = tables.add("MemberRef", mark, ".ctor", bytes([0x20]) + parameters)
            tables.add("CustomAttribute", module, constructor, value)
        return clim.open(tables.root(), bare=True)

    def test_each_type(self):
        value = (
            b"\1\0" b"\1" b"\x3d\xd8" + struct.pack("<bBhHiIqQfd", -1, 255, -2, 65534, -3, 1 << 31, -4, 1 << 63, 1.5, -1.5)
            + b"\3a\xc3\xa9" b"\xff" b"\x0dSystem.String" b"\2\0" b"\x08*\0\0\0"
            + struct.pack("<III", 2, 1, 2) + b"\xff\xff\xff\xff" b"\2\0\0\0\x0e\1x\x0e\xff"
            b"\3\0" b"S\x08\5Count\7\0\0\0" b"T\x1d\2\5Flags\1\0\0\0\1" b"TQ\3Tag\2\0"
        )
        parameters = b"\x14\1" + bytes(range(2, 15)) + b"\x0e\x12\x09\x11\x08\x1c\x1d\x08\x1d\x0e\x1d\x1c"
        with self.made((parameters, value)) as assembly:
            found = assembly.custom_attributes[0].arguments
        self.assertEqual(found.fixed, [
            True, "\ud83d", -1, 255, -2, 65534, -3, 1 << 31, -4, 1 << 63, 1.5, -1.5, "a\u00e9", None, "System.String", 2, 42,
            [1, 2], None, ["x", None],
        ])
        self.assertIs(found.fixed[0], True)
        self.assertEqual([type(it) for it in (found.fixed[12], found.fixed[14])], [str, clim.TypeName])
        self.assertEqual(repr(found.fixed[14]), "TypeName('System.String')")
        self.assertEqual(found.named, {"Count": 7, "Flags": [True], "Tag": False})

    def test_what_is_not_decoded(self):
        cases = (
            (b"\1\1\x11\x09", b"\1\0\2\0\0\0\0\0"),  # an enum of another file
            (b"\0\1", b""),  # no bytes
            (b"\0\1", b"\1\0\0"),  # too few
            (b"\0\1", b"\1\0\0\0\0"),  # too many
            (b"\1\1\2", b"\1\0\2\0\0"),  # a boolean that is 2
            (b"\1\1\x0e", b"\1\0\1\xff\0\0"),  # a string that is not UTF-8
            (bytes([65, 1]) + bytes([2]) * 65, b"\1\0" + bytes(67)),  # too many parameters
        )
        with self.made(*cases) as assembly:
            self.assertEqual([it.arguments for it in assembly.custom_attributes], [None] * len(cases))

    def test_long_values(self):
        for count in (15, 16, 17, 5000):
            with self.made((b"\1\1\x1d\x0e", b"\1\0" + struct.pack("<I", count) + b"\1a" * count + b"\0\0")) as assembly:
                self.assertEqual(assembly.custom_attributes[0].arguments, ([["a"] * count], {}))
        with self.made((bytes([64, 1]) + bytes([5]) * 64, b"\1\0" + bytes(range(64)) + b"\0\0")) as assembly:
            attribute = assembly.custom_attributes[0]
            self.assertEqual(attribute.arguments.fixed, list(range(64)))
        self.assertRaises(ValueError, lambda: attribute.arguments)

    def test_samples(self):
        with clim.open(SAMPLES / "shapes.dll") as assembly:
            self.assertEqual([it.arguments for it in assembly.custom_attributes], [([], {})])


class Built(unittest.TestCase):
    """Tables that a program fills."""

    MVID = uuid.UUID("03020100-0504-0706-0809-0a0b0c0d0e0f")

    def setUp(self):
        if not clim.supports("clim_tables"):
            with self.assertRaises(clim.Unsupported) as caught:
                clim.Tables().root()
            self.assertEqual(caught.exception.function, "clim_tables")
            self.skipTest("the library is older")

    def sample(self):
        """A module, a reference, two types of which one is nested, a field, and a method with a parameter."""
        tables = clim.Tables()
        tables.add("Module", 0, "one.dll", self.MVID, None, None)
        base = tables.add("TypeRef", ResolutionScope=("Module", 1), TypeName="Object", TypeNamespace="System")
        tables.add("TypeDef", TypeName="<Module>")
        outer = tables.add("TypeDef", Flags=1, TypeName="Greeter", TypeNamespace="Hello", Extends=base)
        tables.add("Field", Flags=6, Name="count", Signature=b"\x06\x08")
        tables.add("MethodDef", Flags=6, Name="Greet", Signature=b"\x20\x01\x01\x08")
        tables.add("Param", Sequence=1, Name="times")
        inner = tables.add("TypeDef", Flags=2, TypeName="Inner")
        tables.add("NestedClass", inner, outer)
        tables.add("TypeSpec", b"\x1d\x12\x05")
        return tables

    def test_cells_are_those_that_were_given(self):
        tables = self.sample()
        tokens = tables.add_user_string("A"), tables.add_user_string("\ud800" + "'" * 100)
        root = tables.root()
        with clim.open(root, bare=True) as assembly:
            self.assertEqual(assembly.canonical_root(), root)
            self.assertEqual((assembly.version, assembly.module.Mvid), ("v4.0.30319", self.MVID))
            for name in _library.TABLE_NUMBERS:
                self.assertEqual([row.cells() for row in assembly[name]], tables[name])
            first, greeter, inner = assembly.types
            self.assertEqual((first.methods, [it.name for it in greeter.methods]), ([], ["Greet"]))
            self.assertEqual(([it.name for it in greeter.fields], greeter.base.name), (["count"], "Object"))
            self.assertEqual((inner.full_name, inner.methods), ("Hello.Greeter/Inner", []))
            self.assertEqual([it.name for it in greeter.methods[0].params], ["times"])
            self.assertEqual([assembly.user_string(it) for it in tokens], ["A", "\ud800" + "'" * 100])
            self.assertEqual(assembly.user, b"\0\x03A\0\0\x80\xcb\0\xd8" + b"'\0" * 100 + b"\x01" + bytes(2))

    def test_tables_of_an_assembly_make_its_canonical_root(self):
        for path, assembly in opened():
            tables = clim.Tables.of(assembly)
            self.assertEqual(tables.root(), assembly.canonical_root(), path)
            self.assertEqual(repr(tables), f"<tables of {sum(map(len, assembly))} rows>")
            for table in assembly:
                self.assertEqual(tables[table.name], [row.cells() for row in table][: len(table)], path)
        self.assertRaises(ValueError, clim.Tables.of, assembly)

    def test_a_cell_is_changed(self):
        with clim.open(SAMPLES / "greeter.root", bare=True) as assembly:
            tables = clim.Tables.of(assembly)
            tables["TypeDef"][1]["TypeName"] = "Welcomer"
            with clim.open(tables.root(), bare=True) as changed:
                self.assertEqual(clim.compare(assembly, changed), clim.Difference("cell", "TypeDef", 2, "TypeName"))
                self.assertEqual(changed.types[1].full_name, "Hello.Welcomer")
            tables["TypeDef"][1]["Extends"] = assembly.types[0]
            tables["TypeDef"][0]["Extends"] = None
            with clim.open(tables.root(), bare=True) as changed:
                self.assertEqual(changed.types[1].Extends, 0x02000001)

    def test_rules(self):
        def changed(table, column, value):
            tables = self.sample()
            tables[table][-1][column] = value
            return tables

        wanted = [
            (changed("TypeDef", "Extends", ("TypeRef", 2)), "refusal 5 506 at TypeDef 3 Extends: BadIndex"),
            (changed("TypeDef", "Extends", ("Module", 1)), "refusal 5 509 at TypeDef 3 Extends: BadCell"),
            (changed("TypeDef", "Extends", 0x03000001), "refusal 5 509 at TypeDef 3 Extends: BadCell"),
            (changed("NestedClass", "NestedClass", None), "refusal 5 506 at NestedClass 1 NestedClass: BadIndex"),
            (changed("Field", "Flags", 0x10000), "refusal 5 509 at Field 1 Flags: BadCell"),
            (changed("Param", "Name", "a\0b"), "refusal 5 509 at Param 1 Name: BadCell"),
            (changed("TypeDef", "FieldList", 4), "refusal 5 507 at TypeDef 3 FieldList: BadList"),
            (changed("TypeDef", "FieldList", 0), "refusal 6 602 at TypeDef 3 FieldList: BadRun"),
            (changed("NestedClass", "EnclosingClass", 0x02000003), "refusal 6 604 at NestedClass 1 EnclosingClass: NestedOrder"),
            (changed("Field", "Signature", b"\x06"), "refusal 7 701 at Field 1 Signature: BadSignature"),
            (changed("TypeSpec", "Signature", b"\x1d\x12\x09"), "refusal 7 702 at TypeSpec 1 Signature: SignatureIndex"),
        ]
        versioned, alone = clim.Tables("v" * 255), clim.Tables()
        alone.add("Event", Name="Greeted")
        wanted += [(versioned, "refusal 3 302: Version"), (alone, "refusal 6 603 at Event 1 EventFlags: NoOwner")]
        for tables, text in wanted:
            with self.assertRaises(clim.Refusal) as caught:
                tables.root()
            self.assertEqual(str(caught.exception), text)
            for same in (pickle.loads(pickle.dumps(caught.exception)), copy.copy(caught.exception)):
                self.assertEqual((str(same), vars(same)), (text, vars(caught.exception)))
            self.assertRegex(caught.exception.explanation, f"^{caught.exception.code}( {caught.exception.name})?: ")
        self.assertEqual((caught.exception.table, caught.exception.row, caught.exception.layer), ("Event", 1, 6))

    def test_what_no_cell_can_be(self):
        tables = clim.Tables()
        for error, call in (
            (KeyError, lambda: tables.add("NoTable")), (KeyError, lambda: tables.add(3)), (KeyError, lambda: tables["NoTable"]),
            (TypeError, lambda: tables.add("Module", 0)), (TypeError, lambda: tables.add("Module", NoColumn=0)),
            (TypeError, lambda: tables.add("Field", Name="f")), (TypeError, lambda: tables.add("TypeSpec", "1d08")),
            (TypeError, lambda: tables.add("Module", Name=b"a")), (TypeError, lambda: tables.add("Module", Generation="0")),
            (TypeError, lambda: tables.add("Module", Mvid="a")), (TypeError, lambda: tables.add("TypeDef", Flags=clim.Token(1))),
            (TypeError, lambda: tables.add("TypeDef", Extends="TypeRef")), (KeyError, lambda: tables.add("TypeDef", Extends=("a", 1))),
            (ValueError, lambda: tables.add("TypeDef", Flags=-1)), (ValueError, lambda: tables.add("TypeDef", Flags=1 << 32)),
            (ValueError, lambda: tables.add("TypeDef", Extends=("TypeDef", 1 << 24))), (TypeError, lambda: tables.add("TypeDef", Extends=("TypeDef", "a"))),
            (ValueError, lambda: tables.add("TypeDef", Extends=1 << 32)), (ValueError, lambda: tables.add("TypeDef", TypeName="\ud800")),
        ):
            self.assertRaises(error, call)
        self.assertEqual(repr(tables), "<tables of 0 rows>")
        with self.assertRaisesRegex(TypeError, "^Module 1 Name: a text is wanted, and not b'a'$"):
            tables.add("Module", Name=b"a")
        tables.add("Module", Name="a")
        del tables["Module"][0]["Name"]
        self.assertRaises(KeyError, tables.root)
        tables["Module"][0].update(Name="a", Title="b")
        self.assertRaisesRegex(KeyError, "Title", tables.root)
        tables["Module"][0] = {"Name": 1}
        self.assertRaises((KeyError, TypeError), tables.root)

    def test_flags_of_user_strings(self):
        tables = clim.Tables()
        for text, flag in (("", 0), ("a b", 0), ("it's", 1), ("a-b", 1), ("\t\n\r", 0), ("\x01", 1), ("\x7f", 1), ("\u00e9", 0), ("\u0141", 1)):
            tables.add_user_string(text)
            self.assertEqual(tables.user[-1], flag, text)
        token = tables.add_user_string("b" * 10000)
        self.assertEqual(token, 0x70000000 | len(tables.user) - 20005)
        with clim.open(tables.root(), bare=True) as assembly:
            self.assertEqual(assembly.user_string(token), "b" * 10000)


class Embedded(unittest.TestCase):
    """Copies of a file with another root."""

    def setUp(self):
        self.path = SAMPLES / "members.dll"
        self.file = self.path.read_bytes()
        if not clim.supports("clim_embed"):
            with clim.open(self.file) as assembly, self.assertRaises(clim.Unsupported) as caught:
                assembly.embed()
            self.assertEqual(caught.exception.function, "clim_embed")
            self.skipTest("the library is older")

    def changed(self, change):
        """A root of the rows of the file, after a change of them."""
        with clim.open(self.file) as assembly:
            tables = clim.Tables.of(assembly)
        change(tables)
        return tables.root()

    def test_a_type_is_renamed(self):
        for name in ("B", "Renamed" * 300):
            root = self.changed(lambda tables: tables["TypeDef"][1].update(TypeName=name))
            with clim.open(self.path) as assembly, tempfile.NamedTemporaryFile() as written:
                copies = {assembly.embed(it) for it in (root, bytearray(root), memoryview(root))}
                self.assertEqual(len(copies), 1)
                written.write(copies.pop())
                written.flush()
                with clim.open(written.name) as copied:
                    self.assertEqual(copied.types[1].name, name)
                    self.assertEqual(clim.compare(assembly, copied), clim.Difference("cell", "TypeDef", 2, "TypeName"))
                    self.assertEqual(copied.canonical_root(), root)
                    self.assertEqual(copied.header.entry_point_token, assembly.header.entry_point_token)

    def test_the_canonical_root(self):
        for path, bare in FILES:
            with clim.open(path, bare) as assembly:
                if bare:
                    self.assertRaises(ValueError, assembly.embed)
                    continue
                copied = assembly.embed()
                self.assertEqual(copied, assembly.embed(assembly.canonical_root()), path)
                with clim.open(copied) as again:
                    self.assertIsNone(clim.compare(assembly, again), path)
                    self.assertEqual(again.embed(), copied, path)
        self.assertRaises(ValueError, assembly.embed)

    def test_the_strong_name(self):
        with clim.open(self.path) as assembly:
            flags, at = assembly.header.flags | 8, assembly.header.offset
        signed = bytearray(self.file)
        struct.pack_into("<I", signed, at + 16, flags)
        struct.pack_into("<II", signed, at + 32, 0x2000, 8)
        wanted = {clim.StrongName.KEEP: (flags, 0x2000, 8), clim.StrongName.CLEAR: (flags - 8, 0, 0)}
        with clim.open(signed) as assembly:
            self.assertEqual(assembly.embed(), assembly.embed(strong_name=clim.StrongName.KEEP))
            for strong_name, parts in wanted.items():
                header = clim.read_header(assembly.embed(None, strong_name))
                self.assertEqual((header.flags, *header.strong_name_signature), parts)
            self.assertRaises(ValueError, assembly.embed, None, 0)
            self.assertRaises(ValueError, assembly.embed, None, "keep")

    def test_what_makes_no_copy(self):
        with clim.open(self.path) as assembly:
            for root, code in ((b"", 301), (b"BSJB", 301), (assembly.canonical_root()[:-1], None)):
                with self.assertRaises(clim.Fault) as caught:
                    assembly.embed(root)
                self.assertIn(code, (caught.exception.code, None))
                self.assertEqual(str(clim.check(root, bare=True)), str(caught.exception))
            for change in (
                lambda tables: tables["MethodDef"][0].update(RVA=1),
                lambda tables: tables.add_user_string("a"),
                lambda tables: tables.add("MethodDef", Name="added", Signature=b"\0\0\x01"),
            ):
                with self.assertRaises(clim.EmbedError) as caught:
                    assembly.embed(self.changed(change))
                self.check_error(caught.exception, "unlike", "does not lead into the file")
            self.assertRaises(TypeError, assembly.embed, 1)
            self.assertRaises(TypeError, assembly.embed, "a.root")
        # Method bodies are looked for in the range of the old root.
        with clim.open(self.changed_file()) as assembly, self.assertRaises(clim.EmbedError) as caught:
            assembly.embed()
        self.check_error(caught.exception, "occupied", "something else in it")

    def changed_file(self):
        """The file, with a directory within its root."""
        with clim.open(self.path) as assembly:
            header = assembly.header
        changed = bytearray(self.file)
        struct.pack_into("<II", changed, header.offset + 24, header.metadata.rva + 4, 4)
        return changed

    def check_error(self, error, reason, text):
        self.assertEqual(error.reason, reason)
        self.assertIn(text, str(error))
        for same in (pickle.loads(pickle.dumps(error)), copy.copy(error)):
            self.assertEqual((str(same), vars(same)), (str(error), vars(error)))

    def test_texts_of_errors(self):
        for reason in _library.NO_COPY.values():
            self.assertGreater(len(str(clim.EmbedError(reason))), 10)


class Examples(doctest.DocTestParser):
    """The examples of a page, without those from some lines on if the library is too old for them."""

    NEWER = (
        ("Names and declarations are those of ILAsm", "clim_declaration"),
        ("## New metadata\n", "clim_tables"),
        ("## A copy of a file\n", "clim_embed"),
        ("## And in Python?\n", "clim_declaration"),
    )

    def get_examples(self, string, name="<string>"):
        for heading, function in self.NEWER:
            text, found, _ = string.partition(heading)
            string = string if found and clim.supports(function) else text
        return super().get_examples(string, name)


def load_tests(loader, tests, pattern):
    """The tests above, and the examples of two pages."""
    for page in ("python/README.md", "docs/RECIPES.md"):
        tests.addTests(doctest.DocFileSuite(str(TOP / page), module_relative=False, parser=Examples()))
    return tests


def main():
    FILES.extend((pathlib.Path(it), it.endswith(".root")) for it in sys.argv[1:])
    os.chdir(TOP)
    result = unittest.main(argv=sys.argv[:1], exit=False).result
    bad = len(result.failures) + len(result.errors)
    print(f"{result.testsRun - bad - len(result.skipped)} passed, {bad} failed")
    return bad > 0


if __name__ == "__main__":
    sys.exit(main())
