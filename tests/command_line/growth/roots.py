"""Roots and files that strangers could make to keep clim busy, of about the number of bytes that is asked for."""

import inspect
import struct

from encoded import ADDRESS, CLI_HEADER, Root, blob_of, coded, image_of, packed, root_of_streams

# The part of a signature of local variables that repeats: an int32 (II.23.1.16).
INT32 = b"\x08"
# A local variable of the first generic parameter, whose number is in its shortest form and in a longer one (II.23.2).
SHORTEST, LONGER = b"\x13\0", b"\x13\x80\0"
# Signatures of a field and a property of int32, and of a method without parameters that returns nothing, each as a blob.
FIELD, PROPERTY, METHOD = (blob_of(it) for it in (b"\x06\x08", b"\x08\0\x08", b"\0\0\x01"))
# Flags of types, methods and fields (II.23.1.5, II.23.1.10, II.23.1.15).
PUBLIC, NESTED_PUBLIC, PUBLIC_METHOD, STATIC = 1, 2, 6, 16
# The number of types of one name that are looked up.
DEPTH = 64
# The bytes of the longest public key whose token is printed, of the longest value of an attribute that is read, and of the
# longest name that can be near to another one.
KEY, VALUE, NEAR = 2080, 1024, 86
# The largest number of sections or streams, and that of parameters that rows of Param can have.
MOST_HEADERS, MOST_PARAMETERS = 65_000, 60_000
# The name of a type or a resource that is looked up, and the path of a type that is nested deep and has it.
SOUGHT = "c" * 64
INNERMOST = "a/" * (DEPTH - 1) + SOUGHT


def bytes_of(made):
    """The bytes of a root or a file."""
    return made if isinstance(made, bytes) else made.encoded()


def heap(*contents):
    return b"\0" + b"".join(contents)


def type_row(name=1, namespace=0, extends=0, fields=1, methods=1, flags=0):
    return (flags, name, namespace, extends, fields, methods)


def method_row(name=1, signature=1, params=1, flags=0):
    return (0, 0, flags, name, signature, params)


def reference_row(key=0, name=1, culture=0, digest=0):
    """A row of AssemblyRef with a public key that is no token."""
    return (1, 2, 3, 4, 1, key, name, culture, digest)


def mixed(count):
    """The numbers from 1 on, far from ascending. The factor is a prime number that does not divide the count."""
    return [number * 1_000_003 % count + 1 for number in range(count)]


def locals_of(count, first=INT32):
    """A signature of this number of local variables, the first of which is given."""
    return blob_of(b"\x07" + packed(count) + first + INT32 * (count - 1))


def parameters_of(count):
    """The signature of a method with this number of parameters."""
    return blob_of(b"\0" + packed(count) + b"\x01" + INT32 * count)


def generic_method(count):
    """The signature of a method with this number of generic parameters, without parameters."""
    return blob_of(b"\x10" + packed(count) + b"\0\x01")


def generic_of(count):
    """A type: the second row of TypeDef with arguments, which are all the first row."""
    return b"\x15\x12\x08" + packed(count) + b"\x12\x04" * count


def module_refs(starts, texts):
    return Root({"ModuleRef": [(it,) for it in starts]}, texts)


def files_of(indexes, blobs):
    """Rows of File, each with a name and a blob."""
    return Root({"File": [(0, 1, it) for it in indexes]}, b"\0a\0", blobs)


# ---- texts that overlap, or that many rows share


def one_text(size):
    return module_refs([1] * (size // 8), heap(b"b" * (size // 2), b"\0"))


def two_texts_in_turn(size):
    text = b"b" * (size // 4) + b"\0"
    return module_refs([1, 2 + len(text)] * (size // 16), heap(b"c", text, b"d", text))


def endings(size):
    return module_refs(range(1, size // 8 + 1), heap(b"b" * (size // 2), b"\0"))


def endings_of_two(size):
    """Endings of two texts that are equal but for their first bytes, in turn."""
    text = b"b" * (size // 4) + b"\0"
    starts = [start + number for number in range(size // 16) for start in (2, 3 + len(text))]
    return module_refs(starts, heap(b"c", text, b"d", text))


def endings_from_the_last(size):
    """Endings of a text, the shortest one first."""
    return module_refs(range(size // 8, 0, -1), heap(b"b" * (size // 8), b"\0"))


def endings_beside_bad_text(size):
    """Endings of a text, in a heap that is not UTF-8 as a whole."""
    return module_refs(range(3, size // 8 + 3), heap(b"\xff\0", b"b" * (size // 2), b"\0"))


def endings_of_two_bytes(size):
    """Endings of a text whose characters have two bytes each."""
    return module_refs(range(1, size // 4, 2), heap("\u00e9".encode() * (size // 4), b"\0"))


def endings_of_controls(size):
    """Endings of a text of control characters, which are escaped."""
    return module_refs(range(1, size // 8 + 1), heap(b"\1" * (size // 2), b"\0"))


def endings_of_types(size):
    """Types whose names and namespaces are endings of one text."""
    rows = [type_row(number, number + 1) for number in range(1, size // 40)]
    return Root({"TypeDef": rows}, heap(b"b" * (size // 2), b"\0"))


def endings_of_parameters(size):
    """A method whose parameters have endings of one text as names."""
    count = min(size // 20, MOST_PARAMETERS)
    rows = {"TypeDef": [type_row()], "MethodDef": [method_row()], "Param": [(0, it, it) for it in range(1, count + 1)]}
    return Root(rows, heap(b"b" * (size // 2), b"\0"), heap(parameters_of(count)))


def endings_of_references(size):
    """References to assemblies whose names and cultures are endings of one text."""
    rows = [reference_row(name=number, culture=number + 1) for number in range(1, size // 56)]
    return Root({"AssemblyRef": rows}, heap(b"b" * (size // 2), b"\0"))


def cells_of_one_text(size):
    return module_refs([1] * (size // 4), b"\0a\0")


def one_escaped_text(size):
    """One text of control characters."""
    return Root({"Module": [(0, 1, 0, 0, 0)]}, heap(b"\1" * size, b"\0"))


def texts_of_their_own(size):
    count = size // 12
    return module_refs(range(1, 8 * count, 8), heap(*[b"%07x\0" % number for number in range(count)]))


# ---- blobs that overlap, or that many rows share


def one_plain_blob(size):
    return files_of([1] * (size // 24), heap(blob_of(bytes(size // 2))))


def many_short_blobs(size):
    count = size // 20
    return files_of(range(1, 8 * count, 8), heap(*[b"\7" + struct.pack("<IHB", number, 0, 0) for number in range(count)]))


def in_turn(size, lengths):
    """Indexes of blobs of these lengths in turn, and a heap of nothing but these lengths, so that many are equal."""
    count, part = size // 64, b"".join(map(packed, lengths))
    return range(1, 4 * count, 4), heap(part * ((4 * count + max(lengths)) // len(part) + 2))


def equal_blobs_that_overlap(size):
    return files_of(*in_turn(size, [size // 8]))


def two_blobs_that_overlap(size):
    return files_of(*in_turn(size, [size // 8, size // 8 - 1]))


def three_blobs_that_overlap(size):
    return files_of(*in_turn(size, [size // 8, size // 8 - 4, size // 8 - 1]))


def overlapping_blobs_at_other_indexes(size):
    """Rows whose equal blobs are at other indexes in the second root, each at another distance."""
    indexes, blobs = in_turn(size, [size // 8])
    others = [indexes[number - 1] for number in mixed(len(indexes))]
    return files_of(indexes, blobs), files_of(others, blobs)


def overlapping_values_of_attributes(size):
    indexes, blobs = in_turn(size, [size // 8])
    parent, method = coded("HasCustomAttribute", "TypeDef", 1), coded("CustomAttributeType", "MethodDef", 1)
    rows = {"TypeDef": [type_row()], "MethodDef": [method_row(signature=len(blobs))]}
    return Root({**rows, "CustomAttribute": [(parent, method, it) for it in indexes]}, b"\0a\0", blobs + METHOD)


def overlapping_digests_of_references(size):
    indexes, blobs = in_turn(size, [size // 8])
    return Root({"AssemblyRef": [reference_row(digest=it) for it in indexes]}, b"\0a\0", blobs)


def overlapping_constants(size):
    indexes, blobs = in_turn(size, [size // 8])
    rows = {"TypeDef": [type_row()], "Field": [(0, 1, len(blobs))]}
    return Root({**rows, "Constant": [(8, 0, coded("HasConstant", "Field", 1), it) for it in indexes]}, b"\0a\0", blobs + FIELD)


def overlapping_blobs(size):
    """Blobs that begin one after another, and all end at the end of the heap."""
    count = size // 16
    return files_of(range(1, 4 * count, 4), heap(*[packed(4 * (count - number) - 4) for number in range(count)]))


def equal_signatures_that_overlap(size):
    """Types of arrays, each with numbers in a longer form. The heap repeats one part, so all are equal."""
    count, parts = size // 30, size // 64
    # In each part, the length of the signature, ARRAY, int32, a rank and the number of sizes are also sizes themselves.
    part = packed(42 + 16 * parts) + b"\x14\x08" + packed(1 << 20) + packed(1 + 6 * parts + 2) + b"\x80\x01"
    return Root({"TypeSpec": [(1 + len(part) * it,) for it in range(count)]}, blobs=heap(part * (count + parts + 4)))


# ---- signatures and keys that many rows share


def two_signatures_in_turn(size):
    """Signatures that are apart by a multiple of 1024 bytes."""
    blobs = heap(locals_of(size // 4))
    second = -(-len(blobs) // 1024) * 1024 + 1
    return Root({"StandAloneSig": [(1,), (second,)] * (size // 16)}, blobs=blobs.ljust(second, b"\0") + locals_of(size // 4))


def one_signature(size):
    return Root({"StandAloneSig": [(1,)] * (size // 8)}, blobs=heap(locals_of(size // 2)))


def many_locals(size):
    """One signature of local variables, named by one row."""
    return Root({"StandAloneSig": [(1,)]}, blobs=heap(locals_of(size)))


def one_instantiation(size):
    """Instantiations of a method that have one signature."""
    count = size // 2
    rows = {"TypeDef": [type_row()], "MethodDef": [method_row()]}
    rows["MethodSpec"] = [(coded("MethodDefOrRef", "MethodDef", 1), 1 + len(METHOD))] * (size // 12)
    return Root(rows, b"\0a\0", heap(METHOD, blob_of(b"\x0a" + packed(count) + INT32 * count)))


def fields_with_one_signature(size):
    """Fields of a generic type with many arguments."""
    count = size // 2
    signature = blob_of(b"\x06\x15\x12\x04" + packed(count) + INT32 * count)
    return Root({"TypeDef": [type_row()], "Field": [(0, 1, 1)] * (size // 20)}, b"\0a\0", heap(signature))


def one_permission_set(size):
    rows = {"TypeDef": [type_row()], "DeclSecurity": [(1, coded("HasDeclSecurity", "TypeDef", 1), 1)] * (size // 16)}
    return Root(rows, b"\0a\0", heap(blob_of(bytes(size // 2))))


def one_native_type(size):
    rows = {"TypeDef": [type_row()], "Field": [(0, 1, 1)]}
    rows["FieldMarshal"] = [(coded("HasFieldMarshal", "Field", 1), 1 + len(FIELD))] * (size // 12)
    return Root(rows, b"\0a\0", heap(FIELD, blob_of(bytes(size // 2))))


def fields_with_one_marshaler(size):
    """Fields whose descriptors are one custom marshaler with a long name."""
    count, name = size // 28, b"b" * (size // 4)
    rows = {"TypeDef": [type_row()], "Field": [(0, 1, 1)] * count}
    rows["FieldMarshal"] = [(coded("HasFieldMarshal", "Field", 1 + it), 1 + len(FIELD)) for it in range(count)]
    return Root(rows, b"\0a\0", heap(FIELD, blob_of(b"\x2c\0\0" + packed(len(name)) + name + b"\0")))


def parameters_with_one_bad_marshaler(size):
    """Methods with a parameter whose descriptors are a long blob that is none because of its last byte."""
    count, name = size // 48, b"b" * (size // 4)
    rows = methods_of_one_parameter(count)
    rows["FieldMarshal"] = [(coded("HasFieldMarshal", "Param", 1 + it), 1 + len(parameters_of(1))) for it in range(count)]
    return Root(rows, b"\0a\0", heap(parameters_of(1), blob_of(b"\x2c\0\0" + packed(len(name)) + name + b"\0\0")))


def methods_of_one_parameter(count):
    """Tables of methods with one parameter each."""
    methods = [method_row(params=1 + it) for it in range(count)]
    return {"TypeDef": [type_row()], "MethodDef": methods, "Param": [(0, 1, 1)] * count}


def methods_of_one_name(size):
    """Methods of a type that differ by their rows alone."""
    return Root({"TypeDef": [type_row()], "MethodDef": [method_row()] * (size // 14)}, b"\0a\0", heap(METHOD))


def parameters_marshalled_out_of_order(size):
    count = size // 28
    rows = methods_of_one_parameter(count)
    rows["FieldMarshal"] = [(coded("HasFieldMarshal", "Param", it), 1 + len(parameters_of(1))) for it in mixed(count)]
    return Root(rows, b"\0a\0", heap(parameters_of(1), blob_of(b"\x14")))


def constants_with_one_value(size):
    """Fields whose constants are one long text."""
    count = size // 28
    rows = {"TypeDef": [type_row()], "Field": [(0, 1, 1)] * count}
    rows["Constant"] = [(0x0E, 0, coded("HasConstant", "Field", 1 + it), 1 + len(FIELD)) for it in range(count)]
    return Root(rows, b"\0a\0", heap(FIELD, blob_of(b"b\0" * (size // 8))))


def constants_of_one_field(size):
    """Many constants, the last of which is that of another field."""
    constants = [(8, 0, coded("HasConstant", "Field", it), 1 + len(FIELD)) for it in [1] * (size // 8) + [2]]
    return Root({"TypeDef": [type_row()], "Field": [(0, 1, 1)] * 2, "Constant": constants}, b"\0a\0", heap(FIELD, blob_of(bytes(4))))


def references_with_one_key(size):
    return Root({"AssemblyRef": [reference_row(key=1)] * (size // 28)}, b"\0a\0", heap(blob_of(b"k" * KEY)))


def assemblies_with_one_key(size):
    return Root({"Assembly": [(0x8004, 1, 2, 3, 4, 1, 1, 1, 0)] * (size // 28)}, b"\0a\0", heap(blob_of(b"k" * KEY)))


def references_with_a_long_key(size):
    """References to assemblies whose key is too long for a token."""
    return Root({"AssemblyRef": [reference_row(key=1)] * (size // 56)}, b"\0a\0", heap(blob_of(b"k" * (size // 2))))


def endings_of_keys(size):
    """References to assemblies whose keys end where the heap does."""
    count = size // 64
    rows = [reference_row(key=1 + 4 * number) for number in range(count)]
    return Root({"AssemblyRef": rows}, b"\0a\0", heap(*[packed(4 * (count - number) - 4) for number in range(count)]))


def own_attributes(size, width, signature, value):
    """A root of which a part is attributes of the assembly, all with this signature of their constructor and this value.

    The first type is an enum, whose instance field follows the greatest number of static ones that is looked at.
    """
    row = coded("HasCustomAttribute", "Assembly", 1), coded("CustomAttributeType", "MemberRef", 1), 1 + len(signature)
    field = 1 + len(signature + value)
    rows = {
        "TypeRef": [(0, 1, 0), (0, 3, 8)],
        "TypeDef": [type_row(extends=coded("TypeDefOrRef", "TypeRef", 2))],
        "Field": [(STATIC, 1, field)] * 15 + [(0, 1, field)],
        "MemberRef": [(coded("MemberRefParent", "TypeRef", 1), 1, 1)],
        "CustomAttribute": [row] * (size // width),
        "Assembly": [(0, 0, 0, 0, 0, 0, 0, 1, 0)],
    }
    return Root(rows, b"\0a\0Enum\0System\0", heap(signature, value, FIELD))


def attributes_with_one_value(size):
    """Attributes with the longest value that is read. A byte after it makes it none."""
    text = packed(VALUE - 9) + b"k" * (VALUE - 9)
    return own_attributes(size, 28, blob_of(b"\x20\x01\x01\x0e"), blob_of(b"\1\0" + text + b"\0\0\0"))


def attributes_with_a_long_value(size):
    """Attributes with a value that is too long to be printed."""
    text = packed(size // 2) + b"k" * (size // 2)
    return own_attributes(size, 56, blob_of(b"\x20\x01\x01\x0e"), blob_of(b"\1\0" + text + b"\0\0"))


def attributes_with_a_long_signature(size):
    """Attributes with a constructor that takes too many strings."""
    return own_attributes(size, 56, blob_of(b"\x20" + packed(size // 2) + b"\x01" + b"\x0e" * (size // 2)), blob_of(b"\1\0\0\0"))


def attributes_of_strings(size):
    """Attributes with a constructor that takes the greatest number of strings that is looked at. A byte after them makes them none."""
    return own_attributes(size, 8, blob_of(b"\x20\x40\x01" + b"\x0e" * 64), blob_of(b"\1\0" + bytes(64 + 3)))


def attributes_of_enums(size):
    """The same of enums, whose values are read."""
    return own_attributes(size, 8, blob_of(b"\x20\x40\x01" + b"\x11\x04" * 64), blob_of(b"\1\0" + bytes(258)))


def attributes_of_many_strings(size):
    """Attributes with a constructor that takes thousands of strings, and a value for many."""
    return own_attributes(size, 8, blob_of(b"\x20" + packed(8314) + b"\x01" + b"\x0e" * 8314), blob_of(b"\1\0" + bytes(1000)))


def members_with_one_signature(size):
    """Members of a type of another module that all have one signature, and for each an attribute that it constructs."""
    count, signature = size // 64, blob_of(b"\x20" + packed(size // 2) + b"\x01" + b"\x0e" * (size // 2))
    row, owner = (coded("MemberRefParent", "TypeRef", 1), 1, 1), coded("HasCustomAttribute", "TypeRef", 1)
    attributes = [(owner, coded("CustomAttributeType", "MemberRef", it), 1 + len(signature)) for it in range(1, count + 1)]
    rows = {"TypeRef": [(0, 1, 0)], "MemberRef": [row] * count, "CustomAttribute": attributes}
    return Root(rows, b"\0a\0", heap(signature, blob_of(b"\1\0\0\0")))


def overrides_with_one_signature(size):
    """Overrides by a method that has many parameters."""
    method = coded("MethodDefOrRef", "MethodDef", 1)
    rows = {"TypeDef": [type_row()], "MethodDef": [method_row()], "MethodImpl": [(1, method, method)] * (size // 12)}
    return Root(rows, b"\0a\0", heap(parameters_of(size // 2)))


# ---- rows in another order than that of their keys, and many rows of one parent


def nested_out_of_order(size):
    """Types that one type encloses. The rows of NestedClass are in descending order."""
    count = size // 26
    return Root({"TypeDef": [type_row()] * count, "NestedClass": [(number, 1) for number in range(count, 1, -1)]}, b"\0a\0")


def null_lists_of_methods(size):
    """Types without methods, whose lists are null, after one type that has them all. Parameters are null, too."""
    count = size // 42
    types = [type_row(), *[type_row(methods=0)] * (count - 1)]
    return Root({"TypeDef": types, "MethodDef": [method_row()] * count}, b"\0a\0", heap(METHOD))


def no_members(size):
    return Root({"TypeDef": [type_row(0, fields=0, methods=0)] * (size // 20)})


def properties_out_of_order(size):
    """A property for each type. The rows of PropertyMap are in another order than the types."""
    count = size // 36
    maps = [(number, row) for row, number in enumerate(mixed(count), 1)]
    return Root({"TypeDef": [type_row()] * count, "PropertyMap": maps, "Property": [(0, 1, 1)] * count}, b"\0a\0", heap(PROPERTY))


def events_out_of_order(size):
    """An event for each type. The rows of EventMap are in another order than the types."""
    count = size // 36
    maps = [(number, row) for row, number in enumerate(mixed(count), 1)]
    return Root({"TypeDef": [type_row()] * count, "EventMap": maps, "Event": [(0, 1, 0)] * count}, b"\0a\0")


def maps_of_one_type(size):
    """Rows of PropertyMap and EventMap of one type, each with one member."""
    count = size // 28
    maps = [(1, row) for row in range(1, count + 1)]
    rows = {"TypeDef": [type_row()], "PropertyMap": maps, "Property": [(0, 1, 1)] * count, "EventMap": maps, "Event": [(0, 1, 0)] * count}
    return Root(rows, b"\0a\0", heap(PROPERTY))


def maps_without_members(size):
    """Rows of PropertyMap of one type, all but the last without a property."""
    rows = {"TypeDef": [type_row()], "PropertyMap": [(1, 1)] * (size // 5), "Property": [(0, 1, 1)]}
    return Root(rows, b"\0a\0", heap(PROPERTY))


def accessors_of(size, owners):
    """Properties of one type, and an accessor of each of these properties."""
    count = size // 20
    rows = {"TypeDef": [type_row()], "MethodDef": [method_row()], "PropertyMap": [(1, 1)]}
    rows["Property"] = [(0, 1, 1 + len(METHOD))] * count
    rows["MethodSemantics"] = [(2, 1, coded("HasSemantics", "Property", it)) for it in owners(count)]
    return Root(rows, b"\0a\0", heap(METHOD, PROPERTY))


def accessors_out_of_order(size):
    return accessors_of(size, mixed)


def accessors_of_one_property(size):
    return accessors_of(size, lambda count: [1] * count)


def parameters_out_of_order(size):
    """A method whose rows of Param are in another order than its parameters."""
    count = min(size // 12, MOST_PARAMETERS)
    rows = {"TypeDef": [type_row()], "MethodDef": [method_row()], "Param": [(0, it, 1) for it in mixed(count)]}
    return Root(rows, b"\0a\0", heap(parameters_of(count)))


def parameters_of_one_position(size):
    """A method whose rows of Param all have the position of the first parameter."""
    count = size // 10
    rows = {"TypeDef": [type_row()], "MethodDef": [method_row()], "Param": [(0, 1, 1)] * count}
    return Root(rows, b"\0a\0", heap(parameters_of(count)))


def attributes_of(size, owners):
    """Types, and a custom attribute of each of these types."""
    count = size // 32
    method = coded("CustomAttributeType", "MethodDef", 1)
    rows = {"TypeDef": [type_row()] * count, "MethodDef": [method_row()]}
    rows["CustomAttribute"] = [(coded("HasCustomAttribute", "TypeDef", it), method, 1 + len(METHOD)) for it in owners(count)]
    return Root(rows, b"\0a\0", heap(METHOD, blob_of(b"\1\0\0")))


def attributes_out_of_order(size):
    return attributes_of(size, mixed)


def attributes_of_one_type(size):
    return attributes_of(size, lambda count: [1] * count)


def attributes_of_one_property(size):
    """Attributes of a property, and accessors of it, whose method is in a type that is not public."""
    count = size // 20
    property, method = coded("HasCustomAttribute", "Property", 1), coded("CustomAttributeType", "MethodDef", 1)
    rows = {"TypeDef": [type_row()], "MethodDef": [method_row(flags=PUBLIC_METHOD)], "PropertyMap": [(1, 1)], "Property": [(0, 1, 1 + len(METHOD))]}
    rows["MethodSemantics"] = [(2, 1, coded("HasSemantics", "Property", 1))] * count
    rows["CustomAttribute"] = [(property, method, 1 + len(METHOD) + len(PROPERTY))] * count
    return Root(rows, b"\0a\0", heap(METHOD, PROPERTY, blob_of(b"\1\0\0")))


def attributes_of_parameters(size):
    """Parameters of methods of types, one of each, and an attribute of each parameter."""
    count = size // 46
    parameters = [coded("HasCustomAttribute", "Param", it) for it in mixed(count)]
    rows = {"TypeDef": [type_row(methods=it, flags=PUBLIC) for it in range(1, count + 1)]}
    rows["MethodDef"] = [method_row(params=it, flags=PUBLIC_METHOD) for it in range(1, count + 1)]
    rows["Param"] = [(0, 1, 1)] * count
    rows["CustomAttribute"] = [(it, coded("CustomAttributeType", "MethodDef", 1), 1 + len(METHOD)) for it in parameters]
    return Root(rows, b"\0a\0", heap(METHOD, blob_of(b"\1\0\0")))


def overrides_of_one_type(size):
    method = coded("MethodDefOrRef", "MethodDef", 1)
    rows = {"TypeDef": [type_row()], "MethodDef": [method_row()], "MethodImpl": [(1, method, method)] * (size // 6)}
    return Root(rows, b"\0a\0", heap(METHOD))


def interfaces_of_one_type(size):
    return Root({"TypeDef": [type_row()], "InterfaceImpl": [(1, coded("TypeDefOrRef", "TypeDef", 1))] * (size // 4)}, b"\0a\0")


# ---- nested types


def nested_deep(count, name=b"", **others):
    """Types that are nested DEPTH deep, in order, all with this name, and rows of other tables.

    Members are those of the innermost type of the first chain.
    """
    nested = [(number, number - 1) for number in range(2, count + 1) if number % DEPTH != 1]
    types = [type_row()] * DEPTH + [type_row(methods=len(others.get("MethodDef", ())) + 1)] * (count - DEPTH)
    rows = {"TypeDef": types, "NestedClass": nested, **others}
    blobs = heap(METHOD, PROPERTY, blob_of(b"\x06\x12" + packed(DEPTH << 2)))
    return Root(rows, heap(name, b"\0"), blobs, in_order=("NestedClass",))


# The index of the signature of a field whose type is the innermost one of the first chain, in the heap of nested_deep.
DEEP = 1 + len(METHOD) + len(PROPERTY)


def long_names_of_nested_types(size):
    return nested_deep(max(DEPTH, size // 48), b"a" * (size // 2))


def no_names_of_nested_types(size):
    return nested_deep(max(DEPTH, size // 28))


def one_chain_of_nested_types(size):
    """Types each of which encloses the next one."""
    count = size // 28
    nested = [(number, number - 1) for number in range(2, count + 1)]
    return Root({"TypeDef": [type_row()] * count, "NestedClass": nested}, b"\0a\0", in_order=("NestedClass",))


def one_chain_of_visible_types(size):
    """The same: the first is public, and the others are nested public. The rows of NestedClass are in descending order."""
    count = size // 28
    rows = {"TypeDef": [type_row(flags=PUBLIC)] + [type_row(flags=NESTED_PUBLIC)] * (count - 1)}
    rows["NestedClass"] = [(number, number - 1) for number in range(count, 1, -1)]
    return Root(rows, b"\0a\0")


def nestings_of_one_type(size):
    """Rows of NestedClass that all nest one type."""
    return Root({"TypeDef": [type_row(flags=PUBLIC), type_row(flags=NESTED_PUBLIC)], "NestedClass": [(2, 1)] * (size // 4)}, b"\0a\0")


def fields_of_a_nested_type(size):
    """Fields whose type is nested deep. No type has a name."""
    return nested_deep(DEPTH, Field=[(0, 1, DEEP)] * (size // 10))


def fields_beside_many_nested_types(size):
    """The same beside nested types, one for each field, so that finding one takes longer."""
    return nested_deep(max(DEPTH, size // 48), Field=[(0, 1, DEEP)] * (size // 24))


def interfaces_of_nested_types(size):
    rows = [(DEPTH, coded("TypeDefOrRef", "TypeDef", DEPTH))] * (size // 8)
    return nested_deep(max(DEPTH, size // 64), InterfaceImpl=rows)


def overrides_of_nested_types(size):
    """Overrides whose methods are of a type that is nested deep."""
    method = coded("MethodDefOrRef", "MethodDef", 1)
    return nested_deep(max(DEPTH, size // 64), MethodImpl=[(DEPTH, method, method)] * (size // 16), MethodDef=[method_row()])


def generic_parameters_of_nested_types(size):
    rows = [(0, 0, coded("TypeOrMethodDef", "TypeDef", DEPTH), 1)] * (size // 24)
    return nested_deep(max(DEPTH, size // 64), GenericParam=rows)


def accessors_of_nested_types(size):
    """Accessors of a property whose type is nested deep, and their method too."""
    rows = {"PropertyMap": [(DEPTH, 1)], "Property": [(0, 1, 1 + len(METHOD))], "MethodDef": [method_row()]}
    rows["MethodSemantics"] = [(2, 1, coded("HasSemantics", "Property", 1))] * (size // 16)
    return nested_deep(max(DEPTH, size // 64), **rows)


def in_a_circle(size, name):
    """Types that extend a type of another module, whose scopes go in a circle."""
    ring = [(coded("ResolutionScope", "TypeRef", it % DEPTH + 1), name, 0) for it in range(1, DEPTH + 1)]
    rows = [type_row(extends=coded("TypeDefOrRef", "TypeRef", 1))] * (size // 20)
    return Root({"TypeRef": ring, "TypeDef": rows}, b"\0a\0")


def references_in_a_circle(size):
    return in_a_circle(size, 1)


def references_in_a_circle_without_names(size):
    return in_a_circle(size, 0)


def members_in_a_circle(size, name):
    """Members of a type of another module, whose scopes go in a circle."""
    ring = [(coded("ResolutionScope", "TypeRef", it % DEPTH + 1), name, 0) for it in range(1, DEPTH + 1)]
    return {"TypeRef": ring, "MemberRef": [(coded("MemberRefParent", "TypeRef", 1), name, 1)] * (size // 10)}


def members_in_a_circle_without_names(size):
    return Root(members_in_a_circle(size, 0), blobs=heap(FIELD))


def members_in_a_circle_with_long_names(size):
    return Root(members_in_a_circle(size // 2, 1), heap(b"a" * (size // 2), b"\0"), heap(FIELD))


def one_chain_of_references(size):
    """Types of other modules each of which encloses the next one."""
    rows = [(coded("ResolutionScope", "TypeRef", it - 1), 1, 0) for it in range(2, size // 10)]
    return Root({"AssemblyRef": [reference_row()], "TypeRef": [(coded("ResolutionScope", "AssemblyRef", 1), 1, 0), *rows]}, b"\0a\0")


def references_in_one_long_assembly(size):
    """Types of an assembly that has a long name, and members of these types."""
    types = size // 64
    rows = {"AssemblyRef": [reference_row()], "TypeRef": [(coded("ResolutionScope", "AssemblyRef", 1), 0, 0)] * types}
    rows["MemberRef"] = [(coded("MemberRefParent", "TypeRef", it), 0, 1) for it in range(1, types + 1)]
    return Root(rows, heap(b"a" * (size // 2), b"\0"), heap(FIELD))


def members_of_a_method(size):
    """Members whose parent is a method of a type that is nested deep. Types before it have no methods, and their lists are null."""
    made = nested_deep(max(DEPTH, size // 64), MethodDef=[method_row()])
    made.rows["TypeDef"][1 : DEPTH - 1] = [type_row(methods=0)] * (DEPTH - 2)
    made.rows["MemberRef"] = [(coded("MemberRefParent", "MethodDef", 1), 1, 1)] * (size // 16)
    return made


def many_members_of_a_long_type(size):
    """Members of a TypeSpec, a generic type with many arguments."""
    rows = {"TypeDef": [type_row(0)] * 2, "TypeSpec": [(1 + len(METHOD),)]}
    rows["MemberRef"] = [(coded("MemberRefParent", "TypeSpec", 1), 0, 1)] * (size // 64)
    return Root(rows, blobs=heap(METHOD, blob_of(generic_of(size // 8))))


def nested_types_of_one_name(size):
    """Types that one type of another name encloses, and that all have one name."""
    count = size // 28
    nested = [(number, 1) for number in range(2, count + 1)]
    return Root({"TypeDef": [type_row(3)] + [type_row()] * (count - 1), "NestedClass": nested}, b"\0a\0b\0", in_order=("NestedClass",))


def nested_in_one(size):
    """Types that the second type encloses, and many rows that say what encloses this one."""
    types = size // 48
    nested = [(2, 1)] * (size // 8) + [(number, 2) for number in range(3, types + 1)]
    return Root({"TypeDef": [type_row()] * types, "NestedClass": nested}, b"\0a\0", in_order=("NestedClass",))


def exported_types_in_a_circle(size):
    """Exported types, each of which is in the next one, and the last one in the first."""
    count = size // 20
    rows = [(0, 0, 1, 1, coded("Implementation", "ExportedType", it % count + 1)) for it in range(1, count + 1)]
    return Root({"ExportedType": rows}, b"\0a\0")


def exported_types_of_one_long_name(size):
    rows = [(0, 0, 1, 1, coded("Implementation", "ExportedType", 1))] * (size // 40)
    return Root({"ExportedType": rows}, heap(b"a" * (size // 2), b"\0"))


# ---- long names in signatures and declarations


def long_name_again_and_again(size):
    """A field of a generic type, whose arguments are all one type. The name of this type is long."""
    rows = {"TypeDef": [type_row()] * 2, "Field": [(0, 1, 1)]}
    return Root(rows, heap(b"a" * (size // 2), b"\0"), heap(blob_of(b"\x06" + generic_of(size // 4))))


def long_name_in_a_type(size):
    """Some types that extend a TypeSpec: a generic type whose arguments are all one type. The name of this one is long."""
    extending = type_row(size // 2, extends=coded("TypeDefOrRef", "TypeSpec", 1))
    rows = {"TypeDef": [type_row(), *[extending] * 8], "TypeSpec": [(1,)]}
    return Root(rows, heap(b"a" * (size // 2), b"\0"), heap(blob_of(generic_of(size // 4))))


def long_names_of_parameters(size):
    """A method whose parameters all have one long name."""
    count = min(size // 20, MOST_PARAMETERS)
    rows = {"TypeDef": [type_row()], "MethodDef": [method_row()], "Param": [(0, it, 1) for it in range(1, count + 1)]}
    return Root(rows, heap(b"a" * (size // 2), b"\0"), heap(parameters_of(count)))


def long_names_of_generic_parameters(size):
    """Generic parameters of a method, that all have one long name. So has the method."""
    rows = {"TypeDef": [type_row()], "MethodDef": [method_row()]}
    rows["GenericParam"] = [(0, 0, coded("TypeOrMethodDef", "MethodDef", 1), 1)] * (size // 40)
    return Root(rows, heap(b"a" * (size // 2), b"\0"), heap(METHOD))


def long_names_in_the_heads_of_methods(size):
    """A method whose generic parameters and their constraints all have one long name, which the method and its type have too."""
    rows = {"TypeDef": [type_row()], "MethodDef": [method_row()]}
    rows["GenericParam"] = [(0, 0, coded("TypeOrMethodDef", "MethodDef", 1), 1)] * (size // 80)
    rows["GenericParamConstraint"] = [(1, coded("TypeDefOrRef", "TypeDef", 1))] * (size // 80)
    return Root(rows, heap(b"a" * (size // 2), b"\0"), heap(generic_method(size // 80)))


def short_names_in_the_heads_of_methods(size):
    """Methods whose generic parameters are in the reverse order, and have no name."""
    count = size // 24
    rows = {"TypeDef": [type_row()], "MethodDef": [method_row(name=0)] * count}
    rows["GenericParam"] = [(0, 0, coded("TypeOrMethodDef", "MethodDef", it), 0) for it in range(count, 0, -1)]
    return Root(rows, heap(b"a\0"), heap(generic_method(1)))


def long_names_in_the_heads_of_types(size):
    """A type whose generic parameters, their constraints and its interfaces all have one long name, which it has itself."""
    rows = {"TypeDef": [type_row()], "GenericParam": [(0, 0, coded("TypeOrMethodDef", "TypeDef", 1), 1)] * (size // 80)}
    rows["InterfaceImpl"] = rows["GenericParamConstraint"] = [(1, coded("TypeDefOrRef", "TypeDef", 1))] * (size // 80)
    return Root(rows, heap(b"a" * (size // 2), b"\0"))


def short_names_in_the_heads_of_types(size):
    """Types with generic parameters that have no name, and one of them with interfaces that are all it."""
    rows = {"TypeDef": [type_row()] * 2, "GenericParam": [(0, 0, coded("TypeOrMethodDef", "TypeDef", 1), 0)] * (size // 24)}
    rows["GenericParamConstraint"] = [(it, coded("TypeDefOrRef", "TypeDef", 2)) for it in range(1, size // 24)]
    rows["InterfaceImpl"] = [(1, coded("TypeDefOrRef", "TypeDef", 2))] * (size // 12)
    return Root(rows, heap(b"a\0"))


def constraints_by_a_long_type(size):
    """Constraints of a generic parameter by a TypeSpec: a generic type with many arguments that have no name."""
    rows = {"TypeDef": [type_row(0)] * 2, "TypeSpec": [(1,)], "GenericParam": [(0, 0, coded("TypeOrMethodDef", "TypeDef", 1), 0)]}
    rows["GenericParamConstraint"] = [(1, coded("TypeDefOrRef", "TypeSpec", 1))] * (size // 64)
    return Root(rows, blobs=heap(blob_of(generic_of(size // 8))))


def members_of_a_long_type(size):
    """Members of a TypeSpec, a generic type with many arguments, which attributes name."""
    rows = {"TypeDef": [type_row(0)] * 2, "TypeSpec": [(1 + len(METHOD),)]}
    rows["MemberRef"] = [(coded("MemberRefParent", "TypeSpec", 1), 0, 1)]
    attribute = (coded("HasCustomAttribute", "TypeDef", 1), coded("CustomAttributeType", "MemberRef", 1), 0)
    rows["CustomAttribute"] = [attribute] * (size // 64)
    return Root(rows, blobs=heap(METHOD, blob_of(generic_of(size // 8))))


def types_of_one_long_name(size):
    return Root({"TypeDef": [type_row()] * (size // 40)}, heap(b"a" * (size // 2), b"\0"))


def types_in_one_long_namespace(size):
    return Root({"TypeDef": [type_row(1, 3)] * (size // 40)}, heap(b"b\0", b"a" * (size // 2), b"\0"))


def types_with_near_names(size):
    """Types with the longest name that can be near to another one, and no namespace."""
    return Root({"TypeDef": [type_row()] * (size // 20)}, heap(b"a" * NEAR, b"\0"))


def types_with_near_names_at_the_end(size):
    """The same, in a heap that is long before them."""
    return Root({"TypeDef": [type_row(size // 2 + 2)] * (size // 40)}, heap(b"b" * (size // 2), b"\0", b"a" * NEAR, b"\0"))


# ---- types that are found, the last of many


def last_type_is_named(size):
    """Types whose names begin as that of the last one does."""
    rows = [type_row(1)] * (size // 20) + [type_row(2 + len(SOUGHT))]
    return Root({"TypeDef": rows}, heap(SOUGHT.encode()[1:], b"d\0", SOUGHT.encode(), b"\0"))


def last_type_is_nested(size):
    """Types that are nested deep, of which only the innermost one of the last chain has another name."""
    count = max(2, size // 30 // DEPTH) * DEPTH
    made = nested_deep(count, b"a\0" + SOUGHT.encode())
    made.rows["TypeDef"][-1] = type_row(3)
    return made


def several_types_in_one_long_namespace(size):
    """Types that share a name, in a long namespace."""
    texts = heap(SOUGHT.encode(), b"\0", b"a" * (size // 2), b"\0")
    return Root({"TypeDef": [type_row(1, 2 + len(SOUGHT))] * (size // 40)}, texts)


def several_nested_types(size):
    """Types that share a name, each the innermost one of those that are nested deep, and whose names are long."""
    count = max(2, size // 60 // DEPTH) * DEPTH
    made = nested_deep(count, SOUGHT.encode() + b"\0" + b"a" * (size // 2))
    last = 2 + len(SOUGHT)
    made.rows["TypeDef"] = [type_row(1 if row % DEPTH == 0 else last) for row in range(1, count + 1)]
    return made


def rows_of_the_last_type(size):
    """Rows that describe the last of many types, and its field: in each table that describes types or their members."""
    types = size // 56
    owner, field = coded("TypeDefOrRef", "TypeDef", types), coded("HasCustomAttribute", "Field", 1)
    rows = {"TypeDef": [type_row()] * types, "Field": [(0, 1, 1 + len(METHOD))], "MethodDef": [method_row()]}
    rows["InterfaceImpl"] = [(types, owner)] * types
    rows["GenericParam"] = [(0, 0, coded("TypeOrMethodDef", "TypeDef", types), 1)] * types
    rows["GenericParamConstraint"] = [(types, owner)] * types
    rows["DeclSecurity"] = [(1, coded("HasDeclSecurity", "TypeDef", types), 0)] * types
    rows["CustomAttribute"] = [(field, coded("CustomAttributeType", "MethodDef", 1), 0)] * types
    return Root(rows, b"\0a\0", heap(METHOD, FIELD))


# ---- user strings


def many_user_strings(size):
    """User strings of one unit each."""
    return Root({}, strings=b"\0" + b"\x03a\0\0" * (size // 4))


def one_user_string(size):
    """One user string, whose units are no text."""
    return Root({}, strings=heap(packed(size // 2 * 2 + 1) + b"\0\xd8" * (size // 2) + b"\0"))


def user_strings_of_controls(size):
    """User strings of control characters, which are escaped."""
    return Root({}, strings=b"\0" + (b"\x21" + b"\1\0" * 16 + b"\0") * (size // 34))


def empty_user_strings(size):
    return Root({}, strings=bytes(size // 4 * 4 + 1))


# ---- files that break a rule


def no_text_at_the_end(size):
    """Rows with a text each, but for the last one, whose index is past the heap."""
    return module_refs([1] * (size // 4) + [1 << 30], b"\0a\0")


def no_type_at_the_end(size):
    """A signature of many local variables, the last of which has no type."""
    return Root({"StandAloneSig": [(1,)]}, blobs=heap(blob_of(b"\x07" + packed(size) + INT32 * (size - 1) + b"\0")))


# ---- headers


def other_streams(count):
    """A root with this number of streams of other names, without bytes."""
    tables = struct.pack("<IBBBBQQ", 0, 2, 0, 0, 1, 0, 0)
    return root_of_streams([(b"%06x" % number, b"") for number in range(count)] + [(b"#~", tables)])


def many_streams(size):
    """A file whose root has streams of other names."""
    return image_of(other_streams(min(size // 16, MOST_HEADERS)))


def streams_of_all_bytes(size):
    """The same, each with all bytes of the root, and more than that."""
    count = min(size // 16, MOST_HEADERS)
    root = bytearray(other_streams(count))
    first = root.index(b"%06x" % 0) - 8
    for number in range(count):
        struct.pack_into("<II", root, first + 16 * number, 0, 0xFFFFFFFF)
    return image_of(bytes(root))


def many_sections(size):
    """A file with many sections before that of its root."""
    return image_of(files_of([0], b"\0").encoded(), sections=min(size // 40, MOST_HEADERS))


def bodies_of(size, body, **sections):
    """A file whose methods have one body, which is before the root."""
    rows = {"TypeDef": [type_row()], "MethodDef": [(ADDRESS + CLI_HEADER, 0, 0, 1, 1, 1)] * (size // 40)}
    return image_of(Root(rows, b"\0a\0", heap(METHOD)).encoded(), body, **sections)


def bodies_in_many_sections(size):
    return bodies_of(size, b"\x06\x2a\0\0", sections=min(size // 80, MOST_HEADERS))


def bodies_with_data(size):
    """The body has the largest number of data sections that is looked at (II.25.4.5)."""
    section = struct.pack("<BBH", 0x81, 4, 0)
    return bodies_of(size, struct.pack("<HHII", 0x300B, 0, 4, 0) + bytes(4) + section * 63 + b"\x01" + section[1:])


def resources_of(content, names, texts, rows=None):
    """A file with resources of these names, which all have this content, before the root. Rows of another file may be given."""
    made = Root({"ManifestResource": [(0, 1, name, 0) for name in names], **(rows or {})}, texts)
    directory = struct.pack("<I", len(content)) + content
    image = bytearray(image_of(made.encoded(), directory))
    # The field of the resources in the CLI header (II.25.3.3).
    struct.pack_into("<II", image, image.index(struct.pack("<IHH", CLI_HEADER, 2, 5)) + 24, ADDRESS + CLI_HEADER, len(directory))
    return bytes(image)


def resources_with_one_content(size):
    return resources_of(b"r" * (size // 2), [1] * (size // 24), b"\0a\0")


def resources_of_one_long_name(size):
    return resources_of(b"", [1] * (size // 24), heap(b"a" * (size // 2), b"\0"))


def resources_with_endings_as_names(size):
    return resources_of(b"", range(1, size // 24), heap(b"\1" * (size // 2), b"\0"))


def last_resource_is_named(size):
    """Resources whose names begin as that of the last one does, which has a long content."""
    texts = heap(SOUGHT.encode()[1:], b"d\0", SOUGHT.encode(), b"\0")
    return resources_of(b"r" * (size // 4), [1] * (size // 16) + [2 + len(SOUGHT)], texts)


def resources_elsewhere(size):
    """Resources of another file, which has a long name."""
    file = coded("Implementation", "File", 1)
    rows = {"File": [(0, 1, 0)], "ManifestResource": [(0, 1, 0, file)] * (size // 24)}
    return resources_of(b"", [], heap(b"a" * (size // 2), b"\0"), rows)


def field_data(size, parents, class_size=1):
    """A file whose fields have data before the root, each of a type of its own. Rows of ClassLayout have these parents, and this size."""
    count = size // 56
    rows = {"TypeDef": [type_row()] * count, "Field": [(0, 1, 1 + 7 * number) for number in range(count)]}
    rows["ClassLayout"] = [(0, class_size, it) for it in parents(count)]
    rows["FieldRVA"] = [(ADDRESS + CLI_HEADER, number) for number in range(1, count + 1)]
    blobs = heap(*[b"\x06\x06\x11" + packed(number << 2) for number in range(1, count + 1)])
    return image_of(Root(rows, b"\0a\0", blobs).encoded(), bytes(4))


def layouts_in_order(size):
    return field_data(size, lambda count: range(1, count + 1))


def data_of_the_size_of_the_file(size):
    """Each byte after the data of one field is in that of all."""
    return field_data(size, lambda count: range(count, 0, -1), 2 * size)


def layouts_out_of_order(size):
    return field_data(size, mixed)


def layouts_of_one_type(size):
    return field_data(size, lambda count: [count] * count)


# ---- two roots, for compare


def beside_other_bytes(indexes, blobs):
    """Rows with these blobs, and the same ones in a heap that ends with other bytes."""
    return files_of(indexes, blobs), files_of(indexes, blobs + bytes(4))


def blobs_in_a_row(size, count, part):
    """This number of equal blobs, each with this part of the bytes, in a heap of the others."""
    length = int(part * size)
    return range(1, 4 * count, 4), heap(packed(length) * ((4 * count + length) // 4 + 2))


def few_blobs_of_most_of_a_heap(size):
    return beside_other_bytes(*blobs_in_a_row(size, size // 500, 0.96))


def many_blobs_of_most_of_a_heap(size):
    return beside_other_bytes(*blobs_in_a_row(size, size // 100, 0.8))


def many_blobs_of_half_a_heap(size):
    return beside_other_bytes(*blobs_in_a_row(size, size // 50, 0.35))


def many_blobs_of_a_heap_at_other_indexes(size):
    """Equal blobs of most of a heap. Each is at another distance from that of its row in the second root."""
    indexes, blobs = blobs_in_a_row(size, size // 100, 0.8)
    return files_of(indexes, blobs), files_of([indexes[number - 1] for number in mixed(len(indexes))], blobs)


def many_blobs_to_the_end_of_a_heap(size):
    """Blobs that begin one after another, in a heap of which all bytes after the first ones are in each."""
    parts = size // 5
    return beside_other_bytes(range(1, 4 * (size // 100), 4), heap(*[packed(4 * (parts - number) - 4) for number in range(parts)]))


def one_signature_in_two_forms(size):
    """Rows that name one signature, which has a longer encoding in the second root."""
    rows = {"StandAloneSig": [(1,)] * (size // 8)}
    return tuple(Root(rows, blobs=heap(locals_of(size // 2, first))) for first in (SHORTEST, LONGER))


def two_signatures_in_two_forms(size):
    """Rows that name two signatures in turn. Both have longer encodings in the second root."""
    made = []
    for first in (SHORTEST, LONGER):
        one, other = locals_of(size // 4, first), locals_of(size // 4 - 1, first)
        made.append(Root({"StandAloneSig": [(1,), (1 + len(one),)] * (size // 16)}, blobs=heap(one, other)))
    return tuple(made)


def signatures_in_two_orders(size):
    """Many signatures, which are in the opposite order in the second heap, in a longer form."""
    count, made = size // 32, []
    for first, direction in ((SHORTEST, 1), (LONGER, -1)):
        blobs, indexes, at = [], {}, 1
        for number in range(count)[::direction]:
            blobs.append(blob_of(b"\x07" + packed(2) + first + b"\x1e" + packed(number)))
            indexes[number] = at
            at += len(blobs[-1])
        made.append(Root({"StandAloneSig": [(indexes[it],) for it in range(count)]}, blobs=heap(*blobs)))
    return tuple(made)


def endings_of_equal_texts(size):
    """Endings of two texts that are equal but for their first bytes: each of those of the first root with each of the second."""
    text, count = b"b" * (size // 4) + b"\0", size // 32
    texts, starts = heap(b"c", text, b"d", text), [(2 + it, 3 + len(text) + it) for it in range(count)]
    left = [start for pair in starts for start in (pair[0], pair[0], pair[1], pair[1])]
    return module_refs(left, texts), module_refs([start for pair in starts for start in pair * 2], texts)


def endings_after_other_bytes(size):
    """Endings of texts whose characters begin with another byte in the second root, the shortest one first."""
    count = size // 16
    starts = range(2 * count + 1, 2, -2)
    return tuple(module_refs(starts, heap(first, b"\xa9" + "\u00e9".encode() * count, b"\0")) for first in (b"\xc3", b"\xc4"))


def one_cell_that_differs(size):
    """Rows of one long text, and another one in the last row of the second root."""
    texts, count = heap(b"b" * (size // 2), b"\0c\0"), size // 8
    return module_refs([1] * count, texts), module_refs([1] * (count - 1) + [size // 2 + 2], texts)


def all_cells_that_differ(size):
    """Rows whose texts differ in their last bytes."""
    return tuple(module_refs([1] * (size // 8), heap(b"b" * (size // 2), last, b"\0")) for last in (b"c", b"d"))


def parts_of(length):
    """The length of the parts of a heap that the checks remember something of, and the starts of these but for the last."""
    part = length // 1024 + 1
    return part, range(0, length - part, part)


def texts_apart(length):
    """Texts in turn. Each is within a part of a heap that is not UTF-8, and no two are in the same."""
    part, parts = parts_of(length // 2)
    texts = b"\0\xff" + (b"b" * (part - 3) + b"\0").ljust(part, b"\0") * len(parts)
    return module_refs([2 + parts[it % len(parts)] for it in range(length // 8)], texts.ljust(length // 2, b"\0"))


def signatures_apart(length):
    """Signatures in turn. Each is within a part of the heap, no two are in the same, and all begin at one index modulo 1024."""
    part, parts = parts_of(length // 2)
    blobs, signature = bytearray(length // 2), locals_of(part - 1024 - 16)
    starts = [-(-start // 1024) * 1024 for start in parts[1:]]
    for start in starts:
        blobs[start : start + len(signature)] = signature
    return Root({"StandAloneSig": [(starts[it % len(starts)],) for it in range(length // 8)]}, blobs=bytes(blobs))


# Their check takes time that grows faster. It ends at once within a budget.
WITHIN = [texts_apart, signatures_apart]
# All others.
ALL = [it for it in [*globals().values()] if inspect.isfunction(it) and [*inspect.signature(it).parameters] == ["size"]]
