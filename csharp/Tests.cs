// Tests of Clim.cs. The last line is 'N passed, M failed'.
//
//     Tests.exe SAMPLES [FILE..]      the samples in a folder, and these files; without one, mscorlib.dll and Tests.exe
//
// Each name of a type and of a method of a file is compared with that of System.Reflection. What Mono cannot load is left
// out and counted.

using System;
using System.IO;
using System.Linq;
using System.Reflection;
using Clim;
using Assembly = Clim.Assembly;

static class Tests
{
    static int passed, failed;

    static void Check(bool fact, string text)
    {
        if (fact)
            passed++;
        else if (failed++ < 20)
            Console.WriteLine("Tests.cs: not so: " + text);
    }

    // A fact of many, which counts only if it is not so.
    static void Expect(bool fact, string text)
    {
        if (!fact)
            Check(false, text);
    }

    static T Throws<T>(Action call) where T : Exception
    {
        try
        {
            call();
        }
        catch (T caught)
        {
            Check(true, "");
            return caught;
        }
        Check(false, "an exception of the type " + typeof(T).Name);
        return null;
    }

    static void Faults()
    {
        var fault = Throws<ClimFault>(() => Assembly.Open(new byte[] { 0x4D, 0x5A }));
        Check(fault.Message == "fault 1 102 at 0: DosHeader", "the text of a fault");
        Check(fault.Layer == 1 && fault.Code == 102 && fault.Offset == 0 && fault.RuleName == "DosHeader", "its parts");
        Check(fault is BadImageFormatException, "a fault is a bad image");
        Check(Assembly.Check(new byte[0]).Code == 102 && Assembly.CheckRoot(new byte[0]).Code == 301, "no bytes");
        Throws<ClimFault>(() => Assembly.OpenRoot(new byte[0]));
        Throws<ClimFault>(() => Assembly.ReadHeader(new byte[0]));
        Throws<ArgumentNullException>(() => Assembly.Open((byte[])null));
        Throws<ArgumentNullException>(() => Assembly.Open((string)null));
        Throws<ArgumentNullException>(() => Assembly.Open((Stream)null));
        Throws<FileNotFoundException>(() => Assembly.Open("no such file"));
        Throws<ArgumentNullException>(() => Assembly.Check(null));
        Throws<ArgumentNullException>(() => Assembly.ReadHeader(null));
    }

    static void Greeter(byte[] root)
    {
        using (var assembly = Assembly.OpenRoot(root))
        {
            Array.Clear(root, 0, root.Length);
            var greeter = assembly.FindType("Hello", "Greeter").Value;
            Check(assembly.Version == "v4.0.30319" && assembly.UserStrings.Length == 0, "the root");
            Check(greeter.Token.Value == 0x02000002 && greeter.Token.ToString() == "02000002", "a token");
            Check(assembly.FullName(greeter) == "Hello.Greeter" && greeter.Extends == null, "a type");
            Check(assembly.Fields(greeter).Count() == 0, "no fields");
            Check(assembly.Methods(greeter).Select(it => it.Name).SequenceEqual(new[] { ".ctor", "Greet" }), "methods");
            var greet = assembly.Row<MethodDefRow>(2);
            Check(assembly.Params(greet).Select(it => it.Name).SequenceEqual(new[] { "name", "times" }), "parameters");
            Check(greet.Signature.SequenceEqual(new byte[] { 0x00, 0x02, 0x0E, 0x0E, 0x08 }), "a signature");
            Check(assembly.FindType("no such", "type") == null, "no such type");
            Check(assembly.Members(greet.Token, TableId.TypeDef).Count == 0, "methods own no types");
            Throws<ArgumentOutOfRangeException>(() => assembly.Row<MethodDefRow>(0));
            Throws<ArgumentOutOfRangeException>(() => assembly.Row<MethodDefRow>(3));
            Check(assembly.Rows<MethodDefRow>(new RowRange(-5, 99)).Count() == 2, "rows outside are left out");
        }
    }

    static void Closed(byte[] file)
    {
        var assembly = Assembly.Open(file);
        var module = assembly.Row<ModuleRow>(1);
        var rows = assembly.Rows<ModuleRow>();
        assembly.Dispose();
        assembly.Dispose();
        Check(module.Name == "a.dll" && module.Mvid == new Guid("03020100-0504-0706-0809-0a0b0c0d0e0f"), "a row stays");
        Throws<ObjectDisposedException>(() => assembly.Count(TableId.Module));
        Throws<ObjectDisposedException>(() => assembly.Row<ModuleRow>(1));
        Throws<ObjectDisposedException>(() => rows.ToArray());
        Throws<ObjectDisposedException>(() => assembly.Version.ToString());
        Throws<ObjectDisposedException>(() => assembly.UserStrings.ToString());
        Throws<ObjectDisposedException>(() => assembly.FindType("", "a"));
        Throws<ObjectDisposedException>(() => assembly.Members(module.Token, TableId.Field));
        Throws<ObjectDisposedException>(() => assembly.ByKey<CustomAttributeRow>(module.Token));
        Throws<ObjectDisposedException>(() => assembly.FullName(new TypeDefRow { TypeName = "a", TypeNamespace = "" }));
        Throws<ObjectDisposedException>(() => Tables.Of(assembly));
    }

    // Rows whose cells were read before are not read any more.
    static void ClosedHalfway(byte[] root)
    {
        var assembly = Assembly.OpenRoot(root);
        var methods = assembly.Rows<MethodDefRow>().GetEnumerator();
        Check(methods.MoveNext() && methods.Current.Name == ".ctor", "the first row");
        assembly.Dispose();
        Throws<ObjectDisposedException>(() => methods.MoveNext());
    }

    // Runs tests of a function that the library may lack. Then a call of it says so.
    static void Newer(string function, Action tests)
    {
        try
        {
            tests();
        }
        catch (NotSupportedException missing)
        {
            Check(missing.Message.Contains(function), "the library lacks " + function);
        }
    }

    // A copy of a file with another root opens, with the metadata of the root.
    static void Embedded(byte[] file)
    {
        using (var assembly = Assembly.Open(file))
        {
            foreach (string name in new[] { "B", new string('n', 2000) })
            {
                var tables = Tables.Of(assembly);
                tables.Set(new Token(TableId.TypeDef, 2), "TypeName", name);
                // System.Reflection loads one assembly of a name.
                tables.Set(new Token(TableId.Assembly, 1), "Name", "copied");
                var root = tables.Root();
                var copy = assembly.Embed(root);
                Array.Clear(root, 0, root.Length);
                using (var copied = Assembly.Open(copy))
                {
                    Check(copied.Row<TypeDefRow>(2).TypeName == name, "a type is renamed");
                    Check(copied.Count(TableId.MethodDef) == assembly.Count(TableId.MethodDef), "its methods");
                }
                if (name.Length == 1)
                {
                    var loaded = System.Reflection.Assembly.ReflectionOnlyLoad(copy).ManifestModule;
                    Check(loaded.ResolveType(0x02000002).Name == name, "System.Reflection finds the name");
                }
            }
            var own = assembly.Embed();
            Check(own.SequenceEqual(assembly.Embed(assembly.CanonicalRoot())), "no root is the canonical root");
            using (var copied = Assembly.Open(own))
                Check(Assembly.Compare(assembly, copied) == null && copied.Embed().SequenceEqual(own), "its metadata");
            NoCopies(assembly);
        }
    }

    static void StrongNames(byte[] file)
    {
        var header = Assembly.ReadHeader(file);
        var signed = (byte[])file.Clone();
        signed[(long)header.Offset + 16] |= 8;
        signed[(long)header.Offset + 36] = 4;
        using (var assembly = Assembly.Open(signed))
        {
            CliHeader kept = Assembly.ReadHeader(assembly.Embed()),
                cleared = Assembly.ReadHeader(assembly.Embed(null, StrongName.Clear));
            Check(kept.Flags == (header.Flags | 8) && kept.StrongNameSignature.Size == 4, "a strong name that is kept");
            Check(cleared.Flags == (header.Flags & ~8u) && cleared.StrongNameSignature.Size == 0, "one that is cleared");
        }
    }

    static void NoCopies(Assembly assembly)
    {
        var fault = Throws<ClimFault>(() => assembly.Embed(new byte[0]));
        Check(fault.Code == 301 && Throws<ClimFault>(() => assembly.Embed(new byte[16])).Code == 301, "a root that breaks a rule");
        var tables = Tables.Of(assembly);
        tables.Set(new Token(TableId.MethodDef, 1), "RVA", 1);
        var error = Throws<EmbedException>(() => assembly.Embed(tables.Root()));
        Check(error.Reason == EmbedReason.Unlike && error.Message.Contains("does not lead into the file"), "another address");
        Throws<ArgumentOutOfRangeException>(() => assembly.Embed(null, (StrongName)0));
        using (var bare = Assembly.OpenRoot(assembly.CanonicalRoot()))
            Throws<InvalidOperationException>(() => bare.Embed());
    }

    // A file by its path and as a stream, and what its flags mean.
    static void Files(string path)
    {
        using (var stream = new FileStream(path, FileMode.Open, FileAccess.Read))
        {
            using (var assembly = Assembly.Open(stream))
                Check(stream.Position == stream.Length && assembly.FindType("Derived") != null, "a stream");
            Check(Throws<ClimFault>(() => Assembly.Open(stream)).Code == 102, "nothing is left of it");
            stream.Position = 0;
            Newer("clim_open_within", () =>
            {
                Throws<BudgetSpentException>(() => Assembly.Open(stream, 0));
                Throws<BudgetSpentException>(() => Assembly.Open(path, 0));
                Assembly.Open(path, ulong.MaxValue).Dispose();
            });
        }
        var header = Assembly.ReadHeader(File.ReadAllBytes(path));
        Check(header.Attributes == CliHeaderFlags.IlOnly && header.EntryPoint == null, "the flags of a header");
        header.EntryPointToken = 0x06000002;
        Check(header.EntryPoint.Value.Equals(new Token(TableId.MethodDef, 2)), "an entry point");
        header.Flags = (uint)CliHeaderFlags.NativeEntryPoint;
        Check(header.EntryPoint == null && new Token(uint.MaxValue).Value == -1, "an address of native code");
        using (var assembly = Assembly.Open(path))
        {
            foreach (var row in assembly.Rows<FieldRow>())
                Expect((uint)row.Attributes == row.Flags, "the flags of a field");
            var imports = assembly.Rows<ImplMapRow>().Select(it => it.Attributes & PInvokeAttributes.CallConvMask).ToArray();
            Check(imports.Contains(PInvokeAttributes.CallConvPlatformapi), "how a method is called");
            var accessors = assembly.Rows<MethodSemanticsRow>().Select(it => it.Attributes).ToArray();
            Check(accessors.Contains(MethodSemanticsAttributes.Getter), "a method that reads a property");
            Check(assembly.Rows<AssemblyRefRow>().All(it => (uint)it.Attributes == it.Flags), "the flags of assemblies");
        }
    }

    // A full name is that of any type with it: the first type N.A has no nested type.
    static void FullNames()
    {
        var tables = new Tables();
        var outer = new[] { tables.Add(TableId.TypeDef, 0, "A", "N", null, 1, 1), tables.Add(TableId.TypeDef, 0, "A", "N", null, 1, 1) };
        var chain = Enumerable.Range(0, 100).Select(_ => tables.Add(TableId.TypeDef, 0, "C", "", null, 1, 1)).ToArray();
        for (int index = 1; index < chain.Length; index++)
            tables.Add(TableId.NestedClass, chain[index], chain[index - 1]);
        var inner = tables.Add(TableId.TypeDef, 0, "Inner", "", null, 1, 1);
        tables.Add(TableId.NestedClass, inner, outer[1]);
        Func<int, string> name = count => string.Join("/", Enumerable.Repeat("C", count));
        using (var assembly = Assembly.OpenRoot(tables.Root()))
        {
            Check(assembly.FindType("N.A").Value.Token.Equals(outer[0]), "the first type with a name");
            Check(assembly.FindType("N.A/Inner").Value.Token.Equals(inner), "a type in the second with a name");
            Check(assembly.FindType("C").Value.Token.Equals(chain[0]), "a type that is not nested");
            Check(assembly.FindType(name(100)).Value.Token.Equals(chain[99]), "a long name");
            foreach (string none in new[] { "N.A/N.Inner", "A/Inner", "Inner", name(101), "\ud800", "N.A/\ud800" })
                Check(assembly.FindType(none) == null, "no type with the name");
        }
    }

    // Names, declarations and addresses of a file that is opened by its path.
    static void Names(string path)
    {
        var file = File.ReadAllBytes(path);
        var header = Assembly.ReadHeader(file);
        uint rva = header.Metadata.Rva, size = header.Metadata.Size;
        using (var assembly = Assembly.Open(path))
        {
            Check(assembly.NameOf(new Token(TableId.TypeDef, 1)) == "'<Module>'", "a name in quotes");
            foreach (var type in assembly.Rows<TypeDefRow>())
            {
                Check(assembly.FindType(assembly.FullName(type)).Value.Token.Equals(type.Token), "a type by its full name");
                Check(assembly.Declaration(type.Token) == assembly.NameOf(type.Token), "the declaration of a type");
            }
            foreach (string name in new[] { "", "/", "Derived/", "/Derived", "No.Type", new string('/', 100) })
                Check(assembly.FindType(name) == null, "no type by its full name");
            foreach (var method in assembly.Rows<MethodDefRow>())
            {
                string name = assembly.NameOf(method.Token);
                Check(name.EndsWith("::" + method.Name) && assembly.Declaration(method.Token).Contains(name), "a method");
                Check(method.RVA == 0 || assembly.BytesAt(method.RVA, 1).Length == 1, "its body");
            }
            Check(assembly.Declaration(new Token(TableId.Module, 1)) == null, "a row without a declaration");
            foreach (int row in new[] { 0, -1, int.MinValue, int.MaxValue, 0x1000001, 0xFFFFFF })
                Check((assembly.NameOf(new Token(TableId.TypeDef, row)) ?? assembly.Declaration(new Token(TableId.TypeDef, row))) == null, "no row");
            Check(assembly.NameOf(new Token((TableId)0x70, 1)) == null, "no table");
            Check(!new Token(TableId.TypeRef, 0x1000001).Equals(new Token(TableId.TypeRef, 1)), "a row that no token names");
            Check(Assembly.OffsetOf(file, rva, size) == header.RootStart, "where the root is");
            Check(assembly.BytesAt(rva, 4).SequenceEqual(new byte[] { 0x42, 0x53, 0x4A, 0x42 }), "its first bytes");
            Check(assembly.BytesAt(rva, size).Length == size && assembly.BytesAt(rva, 0).Length == 0, "all of it, and none");
            Check(assembly.BytesAt(uint.MaxValue, uint.MaxValue) == null && assembly.BytesAt(0, 1) == null, "no bytes");
            Check(Assembly.OffsetOf(file, uint.MaxValue, 1) == null && Assembly.OffsetOf(new byte[0], rva, 1) == null, "no offset");
            Throws<ArgumentNullException>(() => Assembly.OffsetOf(null, 0, 0));
            using (var bare = Assembly.OpenRoot(assembly.CanonicalRoot()))
                Throws<InvalidOperationException>(() => bare.BytesAt(rva, 4));
            assembly.Dispose();
            Throws<ObjectDisposedException>(() => assembly.NameOf(new Token(TableId.TypeDef, 1)));
            Throws<ObjectDisposedException>(() => assembly.Declaration(new Token(TableId.TypeDef, 1)));
            Throws<ObjectDisposedException>(() => assembly.BytesAt(rva, 4));
            Throws<ObjectDisposedException>(() => assembly.FindType("Derived"));
        }
    }

    static object Value(uint type, params byte[] bytes)
    {
        return new ConstantRow { Type = type, Value = bytes }.TypedValue;
    }

    static void Constants()
    {
        Check(true.Equals(Value(2, 1)) && '\ud841'.Equals(Value(3, 0x41, 0xD8)), "a boolean and a character");
        Check(((sbyte)-1).Equals(Value(4, 255)) && ((byte)255).Equals(Value(5, 255)), "numbers of 8 bits");
        Check(((short)-2).Equals(Value(6, 254, 255)) && ((ushort)65534).Equals(Value(7, 254, 255)), "of 16");
        Check((-2).Equals(Value(8, 254, 255, 255, 255)) && 4294967294u.Equals(Value(9, 254, 255, 255, 255)), "of 32");
        Check((-1L).Equals(Value(10, BitConverter.GetBytes(-1L))) && ulong.MaxValue.Equals(Value(11, BitConverter.GetBytes(-1L))), "of 64");
        Check(1.5f.Equals(Value(12, BitConverter.GetBytes(1.5f))) && (-1.5).Equals(Value(13, BitConverter.GetBytes(-1.5))), "with a point");
        Check("ab".Equals(Value(14, 97, 0, 98, 0)) && "".Equals(Value(14)) && Value(18, 0, 0, 0, 0) == null, "a string, and null");
        foreach (var bytes in new[] { new byte[0], new byte[3], new byte[16] })
            for (uint type = 0; type < 32; type++)
                Check(type == 14 || ReferenceEquals(new ConstantRow { Type = type, Value = bytes }.TypedValue, bytes), "no value");
        Check(Value(2, 2) is byte[] && Value(14, 97, 0, 98) is byte[] && Value(18, 1, 0, 0, 0) is byte[], "other bytes");
    }

    static byte[] Bytes(string digits)
    {
        return Enumerable.Range(0, digits.Length / 2).Select(at => Convert.ToByte(digits.Substring(2 * at, 2), 16)).ToArray();
    }

    // An attribute that has an argument of each type, one whose type is an enum of another file, and one of no bytes.
    static Tables WithAttributes()
    {
        var tables = new Tables("v4.0.30319");
        var module = tables.Add(TableId.Module, 0, "one.dll", null, null, null);
        var mark = tables.Add(TableId.TypeRef, module, "Mark", "Hello");
        tables.Add(TableId.TypeRef, module, "Type", "System");
        var parent = tables.Add(TableId.TypeRef, module, "Enum", "System");
        tables.Add(TableId.TypeDef, 0, "<Module>", "", null, 1, 1);
        tables.Add(TableId.TypeDef, 0, "Color", "", parent, 1, 1);
        tables.Add(TableId.Field, 6, "value__", Bytes("0606"));
        var each = tables.Add(TableId.MemberRef, mark, ".ctor", Bytes("20140102030405060708090A0B0C0D0E0E120911081C1D081D0E1D1C"));
        var other = tables.Add(TableId.MemberRef, mark, ".ctor", Bytes("2001011109"));
        tables.Add(TableId.CustomAttribute, module, each, Bytes(
            "0100" + "01" + "3DD8" + "FF" + "FF" + "FEFF" + "FEFF" + "FDFFFFFF" + "FDFFFFFF" + "FCFFFFFFFFFFFFFF" + "FCFFFFFFFFFFFFFF"
            + "0000C03F" + "000000000000F8BF" + "0361C3A9" + "FF" + "0D53797374656D2E537472696E67" + "0200" + "082A000000"
            + "020000000100000002000000" + "FFFFFFFF" + "02000000" + "0E0178" + "0EFF"
            + "0300" + "530805436F756E7407000000" + "541D0205466C6167730100000001" + "5451035461670200"));
        tables.Add(TableId.CustomAttribute, module, other, Bytes("0100020000000000"));
        tables.Add(TableId.CustomAttribute, module, each, new byte[0]);
        return tables;
    }

    static bool Same(object a, object b)
    {
        var first = a as object[];
        var second = b as object[];
        return first != null && second != null ? first.Length == second.Length && first.Zip(second, Same).All(it => it) : Equals(a, b);
    }

    static void Attributes(string sample)
    {
        using (var assembly = Assembly.OpenRoot(WithAttributes().Root()))
        {
            var rows = assembly.Rows<CustomAttributeRow>().ToArray();
            var arguments = assembly.ArgumentsOf(rows[0]);
            var wanted = new object[] {
                true, '\ud83d', (sbyte)-1, (byte)255, (short)-2, (ushort)65534, -3, 4294967293u, -4L, ulong.MaxValue - 3, 1.5f, -1.5,
                "a\u00e9", null, new TypeName("System.String"), (short)2, 42, new object[] { 1, 2 }, null, new object[] { "x", null } };
            Check(Same(arguments.Fixed, wanted), "an argument of each type");
            Check(arguments.Named.Select(it => it.Name).SequenceEqual(new[] { "Count", "Flags", "Tag" }), "named arguments");
            Check(arguments.Named.Select(it => it.IsProperty).SequenceEqual(new[] { false, true, true }), "a field and properties");
            Check(Same(arguments.Named.Select(it => it.Value).ToArray(), new object[] { 7, new object[] { true }, false }), "their values");
            Check(assembly.ArgumentsOf(rows[1]) == null && assembly.ArgumentsOf(rows[2]) == null, "values that are not decoded");
            Check(assembly.ArgumentsOf(new CustomAttributeRow()) == null, "no attribute");
            assembly.Dispose();
            Throws<ObjectDisposedException>(() => assembly.ArgumentsOf(rows[0]));
        }
        using (var assembly = Assembly.Open(sample))
            foreach (var attribute in assembly.Rows<CustomAttributeRow>())
            {
                var arguments = assembly.ArgumentsOf(attribute);
                Check(arguments.Fixed.Length == 0 && arguments.Named.Length == 0, "an attribute without arguments");
            }
    }

    static void NewerFunctions(byte[] root)
    {
        Newer("clim_open_root_within", () =>
        {
            using (var assembly = Assembly.OpenRoot(root, ulong.MaxValue))
                Check(assembly.Count(TableId.TypeDef) == 2, "a budget that is enough");
            Throws<BudgetSpentException>(() => Assembly.OpenRoot(root, 0));
        });
        Newer("clim_open_within", () => Throws<ClimFault>(() => Assembly.Open(new byte[0], 0)));
        Newer("clim_check_within", () => Check(Assembly.Check(new byte[0], 0).Code == 102, "no bytes"));
        Newer("clim_check_root_within", () =>
        {
            Check(Assembly.CheckRoot(root, ulong.MaxValue) == null, "a budget that is enough");
            Throws<BudgetSpentException>(() => Assembly.CheckRoot(root, 0));
        });
        Newer("clim_explain", () =>
            Check(Assembly.Check(new byte[0]).Explanation.StartsWith("102 DosHeader: "), "an explanation"));
        using (var assembly = Assembly.OpenRoot(root))
        {
            Newer("clim_signature_text", () =>
            {
                string text = assembly.SignatureText(new Token(TableId.MethodDef, 2));
                Check(text.Contains("string") && text.Contains("int32"), "the text of a signature");
                Check(assembly.SignatureText(new Token(TableId.MethodDef, 3)) == null, "no such method");
            });
            Check(assembly.SignatureText(new Token(TableId.TypeDef, 1)) == null, "types have no signatures");
            Newer("clim_user_string", () => Check(assembly.UserString(0x70000001) == null, "no user strings"));
            Newer("clim_canonical_root", () =>
            {
                var canonical = assembly.CanonicalRoot();
                using (var again = Assembly.OpenRoot(canonical))
                    Check(again.CanonicalRoot().SequenceEqual(canonical), "a canonical root is its own");
            });
            Newer("clim_where", () => Where(assembly));
            Newer("clim_compare", () => Differences(assembly));
            Newer("clim_tables", () => Built(assembly));
            Newer("clim_digest", () =>
            {
                using (var hash = System.Security.Cryptography.SHA256.Create())
                    Check(assembly.Digest().SequenceEqual(hash.ComputeHash(assembly.CanonicalRoot())), "a digest");
            });
        }
    }

    // Each cell is found by its bytes.
    static void Where(Assembly assembly)
    {
        Check(assembly.Where(0) == null, "no cell has the first byte");
        var root = assembly.CanonicalRoot();
        using (var again = Assembly.OpenRoot(root))
        {
            var found = Enumerable.Range(0, root.Length).Select(it => again.Where(it)).Where(it => it.HasValue)
                .GroupBy(it => it.Value.Offset).ToArray();
            int cells = ((TableId[])Enum.GetValues(typeof(TableId))).Sum(it => again.Count(it) * Assembly.ColumnNames(it).Length);
            Check(found.Length == cells && found.All(it => it.Count() == it.First().Value.Size), "each cell has its bytes");
            Check(found.All(it => it.First().Value.Row.Row >= 1 && it.First().Value.Row.Row <= again.Count(it.First().Value.Row.Table)),
                "a cell is in a row");
            Check(again.Where(-1) == null && again.Where(0) == null && again.Where(root.Length) == null, "no cell has other bytes");
        }
    }

    // With one byte changed, the cell or the version that has it differs.
    static void Differences(Assembly assembly)
    {
        Check(Assembly.Compare(assembly, assembly) == null, "an assembly equals itself");
        var root = assembly.CanonicalRoot();
        using (var again = Assembly.OpenRoot(root))
        {
            Check(Assembly.Compare(assembly, again) == null, "an assembly equals its canonical root");
            root[16] ^= 1;
            using (var other = Assembly.OpenRoot(root))
            {
                var it = Assembly.Compare(again, other);
                Check(it.HasValue && it.Value.Kind == DifferenceKind.Version && it.Value.Row.Value == 0, "the version differs");
            }
        }
    }

    // Tables with a cell of each kind, and a type in another type.
    static Tables Sample()
    {
        var tables = new Tables();
        var module = tables.Add(TableId.Module, 0, "one.dll", new Guid("03020100-0504-0706-0809-0a0b0c0d0e0f"), null, null);
        var parent = tables.Add(TableId.TypeRef, module, "Object", "System");
        tables.Add(TableId.TypeDef, 0, "<Module>", "", null, 1, 1);
        var outer = AddType(tables, "Greeter", "Hello", parent);
        tables.Add(TableId.Field, FieldAttributes.Public, "count", new byte[] { 0x06, 0x08 });
        tables.Add(TableId.MethodDef, 0, 0, 6, "Greet", new byte[] { 0x20, 0x01, 0x01, 0x08 }, tables.NextRow(TableId.Param));
        tables.Add(TableId.Param, 0, 1, "times");
        var inner = AddType(tables, "Inner", "", null);
        tables.Add(TableId.NestedClass, inner, outer);
        tables.Add(TableId.TypeSpec, new byte[] { 0x1D, 0x12, 0x05 });
        return tables;
    }

    static Token AddType(Tables tables, string name, string space, Token? parent)
    {
        return tables.Add(TableId.TypeDef, TypeAttributes.Public, name, space, parent, tables.NextRow(TableId.Field),
            tables.NextRow(TableId.MethodDef));
    }

    static void Built(Assembly greeter)
    {
        Check(Tables.Of(greeter).Root().SequenceEqual(greeter.CanonicalRoot()), "the tables of an assembly make its root");
        var tables = Sample();
        int first = tables.AddUserString("A"), second = tables.AddUserString("\ud800" + new string('b', 10000));
        var root = tables.Root();
        using (var assembly = Assembly.OpenRoot(root))
        {
            Check(assembly.CanonicalRoot().SequenceEqual(root) && Tables.Of(assembly).Root().SequenceEqual(root), "a root");
            Check(assembly.Row<ModuleRow>(1).Mvid == new Guid("03020100-0504-0706-0809-0a0b0c0d0e0f"), "a GUID");
            Check(assembly.FullName(assembly.Row<TypeDefRow>(3)) == "Hello.Greeter/Inner", "a nested type");
            var type = assembly.FindType("Hello", "Greeter").Value;
            Check(type.Extends.Value.Value == 0x01000001 && type.Flags == 1, "a type");
            Check(assembly.Methods(type).Single().Name == "Greet" && assembly.Fields(type).Single().Flags == 6, "its members");
            Check(assembly.Params(assembly.Row<MethodDefRow>(1)).Single().Name == "times", "a parameter");
            Check(assembly.UserString(first) == "A" && assembly.UserString(second).Length == 10001, "user strings");
            Check(assembly.UserString(second)[0] == '\ud800', "a surrogate without a partner");
            tables.Set(type.Token, "TypeName", "Welcomer");
            using (var changed = Assembly.OpenRoot(tables.Root()))
                Check(changed.FullName(changed.Row<TypeDefRow>(2)) == "Hello.Welcomer", "a cell that was changed");
        }
        using (var empty = Assembly.OpenRoot(new Tables("").Root()))
            Check(empty.Version == "" && empty.Count(TableId.Module) == 0, "no rows");
        Refused();
        Unfit(tables);
    }

    // What breaks a rule, and the text of the refusal.
    static void Refused()
    {
        Token inner = new Token(TableId.TypeDef, 3), nested = new Token(TableId.NestedClass, 1);
        Refuse(inner, "Extends", new Token(TableId.TypeRef, 2), "refusal 5 506 at TypeDef 3 Extends: BadIndex");
        Refuse(inner, "TypeName", new byte[] { 1 }, "refusal 5 509 at TypeDef 3 TypeName: BadCell");
        Refuse(inner, "TypeName", null, "refusal 5 509 at TypeDef 3 TypeName: BadCell");
        Refuse(inner, "FieldList", 4, "refusal 5 507 at TypeDef 3 FieldList: BadList");
        Refuse(inner, "FieldList", 0, "refusal 6 602 at TypeDef 3 FieldList: BadRun");
        Refuse(nested, "EnclosingClass", inner, "refusal 6 604 at NestedClass 1 EnclosingClass: NestedOrder");
        Refuse(new Token(TableId.Field, 1), "Signature", new byte[] { 6 }, "refusal 7 701 at Field 1 Signature: BadSignature");
        var refusal = Throws<ClimRefusal>(() => new Tables(new string('v', 255)).Root());
        Check(refusal.Message == "refusal 3 302: Version" && refusal.Table == null && refusal.Row == null, "no table");
        Check(refusal.Layer == 3 && refusal.Code == 302 && refusal.RuleName == "Version", "the parts of a refusal");
        Check(refusal.Column == null && refusal.ColumnName == null, "no column");
        Newer("clim_explain", () => Check(refusal.Explanation.StartsWith("302 Version: "), "an explanation"));
    }

    static void Refuse(Token row, string column, object cell, string text)
    {
        var tables = Sample();
        tables.Set(row, column, cell);
        var refusal = Throws<ClimRefusal>(() => tables.Root());
        Check(refusal.Message == text, text + " is not " + refusal.Message);
        Check(refusal.Table == row.Table && refusal.Row == row.Row && refusal.ColumnName == column, "the cell of " + text);
    }

    // What is no cell.
    static void Unfit(Tables tables)
    {
        Throws<ArgumentException>(() => tables.Add(TableId.Module, 0));
        Throws<ArgumentException>(() => tables.Add((TableId)3, 0));
        Throws<ArgumentException>(() => tables.Add(TableId.ModuleRef, 1.5));
        Throws<ArgumentException>(() => tables.Add(TableId.ModuleRef, "\ud800"));
        Throws<OverflowException>(() => tables.Add(TableId.AssemblyProcessor, -1));
        Throws<ArgumentOutOfRangeException>(() => tables.Set(new Token(TableId.Module, 2), "Name", "a"));
        Throws<ArgumentOutOfRangeException>(() => tables.Set(new Token(TableId.File, 1), "Name", "a"));
        Throws<ArgumentOutOfRangeException>(() => tables.Set(new Token(TableId.Module, 1), "Title", "a"));
    }

    static void Header(byte[] file)
    {
        var header = Assembly.ReadHeader(file);
        Check(header.Cb >= 72 && header.Metadata.Size == header.RootEnd - header.RootStart, "the CLI header");
        var root = file.Skip((int)header.RootStart).Take((int)header.Metadata.Size).ToArray();
        using (Assembly whole = Assembly.Open(file), bare = Assembly.OpenRoot(root))
            Check(whole.Version == bare.Version && whole.Count(TableId.TypeDef) == bare.Count(TableId.TypeDef), "its root");
    }

    // Runs a comparison with System.Reflection. False if it needs an assembly that is not found.
    static bool CanCompare(Action comparison)
    {
        try
        {
            comparison();
            return true;
        }
        catch (FileNotFoundException)
        {
            return false;
        }
        catch (TypeLoadException)
        {
            return false;
        }
    }

    static void CompareType(Module module, TypeDefRow type)
    {
        var its = module.ResolveType(type.Token.Value);
        Expect(its.Name == type.TypeName, type.Token + " " + its.Name + " is not " + type.TypeName);
        Expect(its.IsNested || (its.Namespace ?? "") == type.TypeNamespace, "the namespace of " + type.Token);
        Expect(its.Attributes == type.Attributes, "the flags of " + type.Token);
    }

    static void CompareMethod(Module module, TypeDefRow type, MethodDefRow method)
    {
        var its = module.ResolveMethod(method.Token.Value);
        Expect(its.Name == method.Name, method.Token + " " + its.Name + " is not " + method.Name);
        Expect(type.Token.Row == 1 || its.DeclaringType.MetadataToken == type.Token.Value, "the type of " + method.Token);
        Expect(its.Attributes == method.Attributes, "the flags of " + method.Token);
        // Mono leaves this flag out for methods of COM.
        var called = MethodImplAttributes.InternalCall;
        Expect((its.GetMethodImplementationFlags() | called) == (method.ImplAttributes | called), "how " + method.Token + " is implemented");
    }

    // Each name of a type and of a method is that of System.Reflection, unless Mono cannot load it: it needs an assembly
    // that is not found. It looks next to the file too, and in the folders that MONO_PATH names.
    static void CompareNames(Module module, Assembly assembly)
    {
        int types = 0, methods = 0, leftOut = 0;
        foreach (var type in assembly.Rows<TypeDefRow>())
        {
            types++;
            if (!CanCompare(() => CompareType(module, type)))
                leftOut++;
            foreach (var method in assembly.Methods(type))
            {
                methods++;
                if (!CanCompare(() => CompareMethod(module, type, method)))
                    leftOut++;
            }
        }
        Expect(methods == assembly.Count(TableId.MethodDef) && types == assembly.Count(TableId.TypeDef), "all rows");
        Console.Write("compared {0} types and {1} methods with System.Reflection", types, methods);
        Console.WriteLine(leftOut == 0 ? "" : ", without " + leftOut + " of them, which need an assembly that is not found");
    }

    // A value of an argument, as this file or System.Reflection has it.
    static string Shown(object value)
    {
        if (value is CustomAttributeTypedArgument)
            value = ((CustomAttributeTypedArgument)value).Value;
        if (value == null)
            return "null";
        if (value is Type)
            return "type " + ((Type)value).FullName;
        if (value is TypeName)
            return "type " + value.ToString().Split(',')[0];
        if (value is Enum)
            value = Convert.ChangeType(value, Enum.GetUnderlyingType(value.GetType()));
        var elements = value as System.Collections.IEnumerable;
        if (elements != null && !(value is string))
            return "[" + string.Join(" ", elements.Cast<object>().Select(Shown)) + "]";
        return value.GetType().Name + " " + Convert.ToString(value, System.Globalization.CultureInfo.InvariantCulture);
    }

    static string Shown(Arguments of)
    {
        var named = of.Named.Select(it => it.Name + "=" + Shown(it.Value)).OrderBy(it => it, StringComparer.Ordinal);
        return string.Join(" ", of.Fixed.Select(Shown).Concat(named));
    }

    static string Shown(CustomAttributeData of)
    {
        var named = of.NamedArguments.Select(it => it.MemberInfo.Name + "=" + Shown(it.TypedValue)).OrderBy(it => it, StringComparer.Ordinal);
        return string.Join(" ", of.ConstructorArguments.Select(it => Shown(it)).Concat(named));
    }

    // The arguments of the attributes of types, fields and methods are those of System.Reflection, which has others too.
    static void CompareArguments(Module module, Assembly assembly)
    {
        int compared = 0, undecoded = 0;
        foreach (var attributes in assembly.Rows<CustomAttributeRow>().GroupBy(it => it.Parent))
        {
            var table = attributes.Key.Table;
            if (table != TableId.TypeDef && table != TableId.Field && table != TableId.MethodDef)
                continue;
            CanCompare(() =>
            {
                var member = module.ResolveMember(attributes.Key.Value);
                var theirs = CustomAttributeData.GetCustomAttributes(member).Select(Shown).ToList();
                foreach (var found in attributes.Select(assembly.ArgumentsOf))
                    if (found == null)
                        undecoded++;
                    else if (++compared > 0)
                        Expect(theirs.Remove(Shown(found)), "the arguments of an attribute of " + attributes.Key + ": " + Shown(found));
            });
        }
        Console.WriteLine("compared the arguments of {0} attributes; {1} are not decoded", compared, undecoded);
    }

    // Calls against one another, on all rows of an assembly.
    static void CompareCalls(Assembly assembly, string path)
    {
        Newer("clim_tables", () =>
            Expect(Tables.Of(assembly).Root().SequenceEqual(assembly.CanonicalRoot()), "the tables of " + path));
        foreach (var nested in assembly.Rows<NestedClassRow>())
        {
            var type = assembly.Row<TypeDefRow>(nested.NestedClass.Row);
            var outer = assembly.Row<TypeDefRow>(nested.EnclosingClass.Row);
            Expect(assembly.FullName(type) == assembly.FullName(outer) + "/" + type.TypeName, "the name of " + type.Token);
        }
        foreach (var attributes in assembly.Rows<CustomAttributeRow>().GroupBy(it => it.Parent))
            if (attributes.Key.Row % 10 == 1)
            {
                var listed = assembly.ByKey<CustomAttributeRow>(attributes.Key).Select(it => it.Token);
                Expect(listed.SequenceEqual(attributes.Select(it => it.Token)), "the attributes of " + attributes.Key);
            }
        Newer("clim_signature_text", () =>
        {
            foreach (var table in new[] {
                TableId.Field, TableId.MethodDef, TableId.MemberRef, TableId.StandAloneSig, TableId.Property,
                TableId.TypeSpec, TableId.MethodSpec })
                Expect(assembly.Count(table) == 0 || assembly.SignatureText(new Token(table, 1)) != null,
                    "the text of a signature of " + table);
        });
    }

    // A file counts once.
    static void Compare(string path)
    {
        int before = failed;
        using (var assembly = Assembly.Open(File.ReadAllBytes(path)))
        {
            CompareCalls(assembly, path);
            try
            {
                var module = System.Reflection.Assembly.ReflectionOnlyLoadFrom(path).ManifestModule;
                CompareNames(module, assembly);
                Newer("clim_attribute_items", () => CompareArguments(module, assembly));
            }
            catch (BadImageFormatException)
            {
                Console.WriteLine("System.Reflection does not load " + path);
            }
        }
        Check(failed == before, "the names of " + path);
    }

    // An assembly that another one needs: what Mono finds, or the file next to the other one; null if there is none.
    static System.Reflection.Assembly Load(ResolveEventArgs wanted, string folder)
    {
        try
        {
            return System.Reflection.Assembly.ReflectionOnlyLoad(wanted.Name);
        }
        catch (FileNotFoundException)
        {
            string path = Path.Combine(folder, new AssemblyName(wanted.Name).Name + ".dll");
            return File.Exists(path) ? System.Reflection.Assembly.ReflectionOnlyLoadFrom(path) : null;
        }
    }

    static int Main(string[] arguments)
    {
        string samples = arguments[0];
        Faults();
        Greeter(File.ReadAllBytes(Path.Combine(samples, "greeter.root")));
        ClosedHalfway(File.ReadAllBytes(Path.Combine(samples, "greeter.root")));
        Closed(File.ReadAllBytes(Path.Combine(samples, "one_module.dll")));
        NewerFunctions(File.ReadAllBytes(Path.Combine(samples, "greeter.root")));
        Constants();
        Newer("clim_", () => Names(Path.Combine(samples, "members.dll")));
        Newer("clim_tables", FullNames);
        Newer("clim_", () => Attributes(Path.Combine(samples, "shapes.dll")));
        Files(Path.Combine(samples, "members.dll"));
        Newer("clim_embed", () =>
        {
            StrongNames(File.ReadAllBytes(Path.Combine(samples, "members.dll")));
            Embedded(File.ReadAllBytes(Path.Combine(samples, "members.dll")));
        });
        Header(File.ReadAllBytes(Path.Combine(samples, "one_module.dll")));
        string folder = ".";
        AppDomain.CurrentDomain.ReflectionOnlyAssemblyResolve += (sender, wanted) => Load(wanted, folder);
        var own = new[] { typeof(object).Assembly.Location, typeof(Tests).Assembly.Location };
        foreach (string path in arguments.Length > 1 ? arguments.Skip(1) : own)
        {
            folder = Path.GetDirectoryName(Path.GetFullPath(path));
            Header(File.ReadAllBytes(path));
            Compare(path);
        }
        Console.WriteLine("{0} passed, {1} failed", passed, failed);
        return failed > 0 ? 1 : 0;
    }
}
