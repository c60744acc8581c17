"""The words for flags and actions, and what the lines of `clim outline` and `clim refs` leave out: bits of flags, and cells."""

import re

from named import KEYS
from notation import CODES, GENERIC, SIZES, forms, one_of

# The words for the bits under a mask, by their value there (II.23.1). Bits after an exclamation mark have no word: what they are.
TYPE = """7:private,public,nested_public,nested_private,nested_family,nested_assembly,nested_famandassem,nested_famorassem 18:auto,sequential,explicit
    20:,interface 80:,abstract 100:,sealed 400:,specialname 800:,rtspecialname 1000:,import 2000:,serializable 30000:ansi,unicode,autochar
    100000:,beforefieldinit 200000:,forwarder !40000:HasSecurity,_which_.permissionset_shows !C00000:CustomStringFormatMask"""
ACCESS = "7:compilercontrolled,private,famandassem,assembly,family,famorassem,public"
FLAGS = {
    "TypeDef.Flags": TYPE,
    "ExportedType.Flags": TYPE,
    "Field.Flags": f"""{ACCESS} 10:,static 20:,initonly 40:,literal 80:,notserialized 200:,specialname 400:,rtspecialname 2000:,pinvokeimpl
        !100:HasFieldRVA,_which_the_line_shows !1000:HasFieldMarshal,_which_the_line_shows !8000:HasDefault,_which_the_line_shows""",
    "MethodDef.Flags": f"""{ACCESS} 8:,unmanagedexp 10:,static 20:,final 40:,virtual 80:,hidebysig 100:,newslot 200:,strict 400:,abstract
        800:,specialname 1000:,rtspecialname 2000:,pinvokeimpl 8000:,reqsecobj !4000:HasSecurity,_which_.permissionset_shows""",
    "MethodDef.ImplFlags": """3:cil,native,optil,runtime 4:managed,unmanaged 8:,noinlining 10:,forwardref 20:,synchronized 40:,nooptimization
        80:,preservesig 1000:,internalcall !700:of_runtimes,_such_as_AggressiveInlining""",
    "Param.Flags": "1:,[in] 2:,[out] 10:,[opt] !1000:HasDefault !2000:HasFieldMarshal",
    "Event.EventFlags": "200:,specialname 400:,rtspecialname",
    "Property.Flags": "200:,specialname 400:,rtspecialname !1000:HasDefault,_which_the_line_shows",
    "MethodSemantics.Semantics": "1:,.set 2:,.get 4:,.other 8:,.addon 10:,.removeon 20:,.fire",
    "ImplMap.MappingFlags": """1:,nomangle 6:,ansi,unicode,autochar 40:,lasterr 700:,platformapi,cdecl,stdcall,thiscall,fastcall
        !700:6_and_7_have_no_word,_as_0 !3030:of_runtimes,_for_characters_that_cannot_be_mapped""",
    "Assembly.Flags": "100:,retargetable !1:PublicKey,_which_the_key_shows !EF0:the_processor_and_the_content !C000:for_compilers",
    "AssemblyRef.Flags": "1:.publickeytoken,.publickey 100:,retargetable !1:PublicKey,_without_a_key !EF0:the_processor_and_the_content !C000:for_compilers",
    "File.Flags": "1:,nometadata",
    "ManifestResource.Flags": "7:,public,private !7:3_to_7_have_no_word,_as_0",
    "GenericParam.Flags": "3:,+,- 4:,class 8:,valuetype 10:,.ctor !3:3_has_no_word,_as_0 !20:of_runtimes",
}
PARSED = {name: [it.replace("_", " ").split(":") for it in text.split()] for name, text in FLAGS.items()}
UNSHOWN = {name: {int(mask[1:], 16): of for mask, of in parts if mask[0] == "!"} | {0xFFFFFFFF: "not of the standard"} for name, parts in PARSED.items()}
# The words of each column, with their masks and values.
WORDS = {name: [
    (int(mask, 16), value * (int(mask, 16) & -int(mask, 16)), word)
    for mask, of in parts if mask[0] != "!" for value, word in enumerate(of.split(",")) if word
] for name, parts in PARSED.items()}
# The actions of permission sets, from 1 on (II.20, II.22.11).
ACTIONS = ["request", "demand", "assert", "deny", "permitonly", "linkcheck", "inheritcheck", "reqmin", "reqopt", "reqrefuse"]
ACTIONS += ["prejitgrant", "prejitdeny", "noncasdemand", "noncaslinkdemand", "noncasinheritance"]
NO_LINE = ("AssemblyProcessor", "AssemblyOS", "AssemblyRefProcessor", "AssemblyRefOS", "StandAloneSig", "MethodSpec")
VALUE_SIZES = {CODES[it]: size for it, size in SIZES.items()}


def always(rows, row):
    return True


def is_of_param(rows, row):
    return row["Parent"].startswith("08")


def is_other(rows, row):
    """Whether the value of a constant is none of its type."""
    size = len(row["Value"]) // 2
    return size % 2 > 0 if row["Type"] == CODES["string"] else size != VALUE_SIZES.get(row["Type"])


def has_other_generics(rows, row):
    """Whether the signature of a generic method does not have the number of the rows of its generic parameters."""
    found, signature = rows.referring["GenericParam", row["token"]], bytes.fromhex(row["Signature"]["blob"])
    return bool(found and signature[0] & GENERIC) and not re.match(one_of(forms(len(found))), signature[1:], re.DOTALL)


# The table, the columns or all of them, why a line leaves their cells out, and of which rows.
LEFT_OUT = [
    ("Module", "Generation EncId EncBaseId", "edit and continue", always),
    ("TypeDef", "FieldList MethodList", "compared as the owners of members", always),
    ("MethodDef", "RVA", "where the body is", always),
    ("MethodDef", "ParamList", "compared as the owners of parameters", always),
    ("MethodDef", "Signature", "the number of generic parameters, which is not that of their rows", has_other_generics),
    ("Param", "", "the result", lambda rows, row: row["Sequence"] == 0),
    ("Param", "", "no parameter has this position", lambda rows, row: row["Sequence"] > rows.params.get(row["owner"], 0)),
    ("Param", "", "neither a name nor flags with words", lambda rows, row: not row["Name"] and not row["Flags"] & 0x0013),
    ("Constant", "Type", "the value is none of this type, and is printed as bytes", is_other),
    ("Constant", "Value", "a bool above 1 is printed as true", lambda rows, row: row["Type"] == CODES["bool"] and row["Value"] > "01"),
    ("FieldMarshal", "", "that of a parameter or a result, whose words oracle/outline compares", is_of_param),
    ("FieldMarshal", "NativeType", "its words, which oracle/outline compares", always),
    *((table, "", "an earlier row describes the same", lambda rows, row: rows.keyed[row["table"], rows.key(row)] is not row) for table in KEYS),
    ("EventMap", "", "compared as the owners of events; rows without events have no line", always),
    ("PropertyMap", "", "compared as the owners of properties; rows without properties have no line", always),
    ("NestedClass", "", "the rows are not in order", lambda rows, row: not rows.is_nested_in_order),
    ("NestedClass", "", "nested deeper than 64", lambda rows, row: rows.path(row["NestedClass"])[0] is None),
    ("TypeRef", "ResolutionScope", "nested deeper than 64", lambda rows, row: rows.path(row["token"])[0] is None),
    ("TypeSpec", "", "no line; the lines that refer to it show the type", always),
    ("AssemblyRef", "HashValue", "a hash", always),
    ("File", "HashValue", "a hash", always),
    ("ExportedType", "TypeDefId", "a hint", always),
    ("ManifestResource", "Offset Implementation", "where the content is", always),
    *((table, "", "no line", always) for table in NO_LINE),
]


def bits_left_out(name, row, value):
    """The bits of flags that no word shows, by their masks, and what they are."""
    for mask, of, _ in WORDS[name]:
        is_hidden = name == "AssemblyRef.Flags" and mask == 1 and not row["PublicKeyOrToken"]
        value &= ~mask if value & mask == of and not is_hidden else -1
    for mask, why in UNSHOWN[name].items():
        if value & mask:
            yield f"{name} {mask & 0xFFFF if mask < 0x10000 else mask & value:#x}", why
        value &= ~mask


def cell_left_out(rows, row, column):
    """Why a line leaves a cell out, if it does."""
    for table, columns, why, holds in LEFT_OUT:
        if table == row["table"] and column in (columns.split() or row) and holds(rows, row):
            return why
    return rows.is_unclear(row)
