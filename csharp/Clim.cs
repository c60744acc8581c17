// clim for C# and other .NET languages: one file to add to a program. It calls the shared library libclim.so.
//
//     using (var assembly = Clim.Assembly.Open("one.dll"))                            // or throws Clim.ClimFault
//         foreach (var type in assembly.Rows<Clim.TypeDefRow>())
//             foreach (var method in assembly.Methods(type))
//                 Console.WriteLine(type.TypeName + "." + method.Name);
//
// A file is opened if and only if it satisfies all rules of ECMA-335 II.22 to II.25. Then each cell is proved to be that of
// the file's only model. Rows are structs with the names of the standard, and count from 1. Clim.Tables makes new metadata,
// and Embed puts it into a copy of the file. It needs C# 6.
//
// The loader has to find libclim.so: in a folder of the system, next to the program, or in one of LD_LIBRARY_PATH.

using System;
using System.Collections.Generic;
using System.IO;
using System.Runtime.InteropServices;
using System.Text;
using System.Threading;

namespace Clim
{
    /// <summary>The first rule that some bytes break. Its message is the line that <c>clim check</c> prints.</summary>
    public sealed class ClimFault : BadImageFormatException
    {
        /// <summary>The layer of the rule, from 1 to 9: the hundreds of its number.</summary>
        public int Layer { get; }

        /// <summary>The number of the rule, for example 501. docs/FAULTS.md explains each.</summary>
        public int Code { get; }

        /// <summary>The offset in the bytes that were opened.</summary>
        public long Offset { get; }

        /// <summary>The name of the rule, for example <c>BadString</c>.</summary>
        public string RuleName { get; }

        internal ClimFault(NativeFault fault, string name)
            : base("fault " + fault.Layer + " " + fault.Code + " at " + fault.Offset + ": " + name)
        {
            Layer = fault.Layer;
            Code = fault.Code;
            Offset = (long)fault.Offset;
            RuleName = name;
        }

        /// <summary>What <c>clim explain</c> prints of the rule, in lines that are not broken.</summary>
        /// <exception cref="NotSupportedException">The library is older than this file.</exception>
        public string Explanation { get { return Native.Explanation(Code); } }
    }

    /// <summary>The first rule that tables break, thrown by <see cref="Tables.Root"/>.</summary>
    public sealed class ClimRefusal : Exception
    {
        /// <summary>The layer of the rule, from 1 to 9: the hundreds of its number.</summary>
        public int Layer { get { return Code / 100; } }

        /// <summary>The number of the rule, for example 506. docs/FAULTS.md explains each.</summary>
        public int Code { get; }

        /// <summary>The name of the rule, for example <c>BadIndex</c>.</summary>
        public string RuleName { get; }

        /// <summary>The table; null if the rule is about none.</summary>
        public TableId? Table { get; }

        /// <summary>The row, counted from 1; null if the rule is about none.</summary>
        public int? Row { get; }

        /// <summary>
        /// The column, counted from 0; null if the rule is about no row. A rule about an entire row is reported at column 0.
        /// </summary>
        public int? Column { get; }

        /// <summary>The name of the column, for example <c>Extends</c>, or null.</summary>
        public string ColumnName { get { return Column.HasValue ? ColumnOf(Table.Value, Column.Value) : null; } }

        internal ClimRefusal(NativeRefusal refusal, string name) : base(Text(refusal, name))
        {
            Code = refusal.Code;
            RuleName = name;
            if (IsWhole(refusal))
                return;
            Table = refusal.Table;
            if (refusal.Row == 0)
                return;
            Row = (int)refusal.Row;
            Column = (int)refusal.Column;
        }

        // The rules about the version and the user strings are about no table.
        static bool IsWhole(NativeRefusal refusal) { return refusal.Code == 302 || refusal.Code == 510; }

        static string Text(NativeRefusal refusal, string name)
        {
            string text = "refusal " + refusal.Code / 100 + " " + refusal.Code;
            if (!IsWhole(refusal))
                text += " at " + refusal.Table;
            if (!IsWhole(refusal) && refusal.Row > 0)
                text += " " + refusal.Row + " " + ColumnOf(refusal.Table, (int)refusal.Column);
            return text + ": " + name;
        }

        static string ColumnOf(TableId table, int column) { return Assembly.ColumnNames(table)[column]; }

        /// <summary>What <c>clim explain</c> prints of the rule, in lines that are not broken.</summary>
        /// <exception cref="NotSupportedException">The library is older than this file.</exception>
        public string Explanation { get { return Native.Explanation(Code); } }
    }

    /// <summary>Thrown by <see cref="Assembly.Open(byte[], ulong)"/> if the texts and signatures have more bytes than the budget.</summary>
    public sealed class BudgetSpentException : Exception
    {
        internal BudgetSpentException() : base("the budget is spent") { }
    }

    /// <summary>
    /// What <see cref="Assembly.Embed"/> does with the strong name of the file, whose hash is no longer right (II.25.3.3).
    /// </summary>
    public enum StrongName : byte
    {
        /// <summary>Its flag and its directory stay. A tool that has the key can write the hash again.</summary>
        Keep = 1,
        /// <summary>Its flag is cleared, and its directory becomes 0.</summary>
        Clear = 2,
    }

    /// <summary>Why <see cref="Assembly.Embed"/> makes no copy of a file.</summary>
    public enum EmbedReason
    {
        /// <summary>The root does not lead into the file: its methods, its addresses or its user strings are others.</summary>
        Unlike,
        /// <summary>The headers of the file overlap.</summary>
        HeadersOverlap,
        /// <summary>The range of the old root has something else in it: a header, a directory, a method body or data.</summary>
        Occupied,
        /// <summary>The root is longer than the old one, and no section can be added or become longer.</summary>
        NoRoom,
    }

    /// <summary>Thrown by <see cref="Assembly.Embed"/> if the root cannot be put into the file.</summary>
    public sealed class EmbedException : Exception
    {
        /// <summary>Why not.</summary>
        public EmbedReason Reason { get; }

        internal EmbedException(EmbedReason reason) : base(Text(reason))
        {
            Reason = reason;
        }

        static string Text(EmbedReason reason)
        {
            switch (reason)
            {
                case EmbedReason.Unlike:
                    return "the root does not lead into the file: its methods, its addresses or its user strings are others";
                case EmbedReason.HeadersOverlap:
                    return "the headers of the file overlap";
                case EmbedReason.Occupied:
                    return "the range of the old root has something else in it";
                default:
                    return "there is no room for the root";
            }
        }
    }

    /// <summary>The tables, by their numbers (II.22).</summary>
    public enum TableId : byte
    {
        /// <summary>The module (II.22.30).</summary>
        Module = 0x00,
        /// <summary>A type of another module (II.22.38).</summary>
        TypeRef = 0x01,
        /// <summary>A type (II.22.37).</summary>
        TypeDef = 0x02,
        /// <summary>A field (II.22.15).</summary>
        Field = 0x04,
        /// <summary>A method (II.22.26).</summary>
        MethodDef = 0x06,
        /// <summary>A parameter (II.22.33).</summary>
        Param = 0x08,
        /// <summary>An interface that a type implements (II.22.23).</summary>
        InterfaceImpl = 0x09,
        /// <summary>A field or a method of another type (II.22.25).</summary>
        MemberRef = 0x0A,
        /// <summary>A constant value (II.22.9).</summary>
        Constant = 0x0B,
        /// <summary>A custom attribute (II.22.10).</summary>
        CustomAttribute = 0x0C,
        /// <summary>How a field or a parameter is marshalled (II.22.17).</summary>
        FieldMarshal = 0x0D,
        /// <summary>A permission set (II.22.11).</summary>
        DeclSecurity = 0x0E,
        /// <summary>The layout of a type (II.22.8).</summary>
        ClassLayout = 0x0F,
        /// <summary>The offset of a field in its type (II.22.16).</summary>
        FieldLayout = 0x10,
        /// <summary>A signature that no other row has (II.22.36).</summary>
        StandAloneSig = 0x11,
        /// <summary>The events of a type (II.22.12).</summary>
        EventMap = 0x12,
        /// <summary>An event (II.22.13).</summary>
        Event = 0x14,
        /// <summary>The properties of a type (II.22.35).</summary>
        PropertyMap = 0x15,
        /// <summary>A property (II.22.34).</summary>
        Property = 0x17,
        /// <summary>A method of an event or a property (II.22.28).</summary>
        MethodSemantics = 0x18,
        /// <summary>A method that implements another (II.22.27).</summary>
        MethodImpl = 0x19,
        /// <summary>Another module (II.22.31).</summary>
        ModuleRef = 0x1A,
        /// <summary>A type that a signature describes (II.22.39).</summary>
        TypeSpec = 0x1B,
        /// <summary>A method of unmanaged code (II.22.22).</summary>
        ImplMap = 0x1C,
        /// <summary>The address of the initial value of a field (II.22.18).</summary>
        FieldRVA = 0x1D,
        /// <summary>The assembly (II.22.2).</summary>
        Assembly = 0x20,
        /// <summary>A processor (II.22.4).</summary>
        AssemblyProcessor = 0x21,
        /// <summary>An operating system (II.22.3).</summary>
        AssemblyOS = 0x22,
        /// <summary>Another assembly (II.22.5).</summary>
        AssemblyRef = 0x23,
        /// <summary>A processor of another assembly (II.22.7).</summary>
        AssemblyRefProcessor = 0x24,
        /// <summary>An operating system of another assembly (II.22.6).</summary>
        AssemblyRefOS = 0x25,
        /// <summary>A file of the assembly (II.22.19).</summary>
        File = 0x26,
        /// <summary>A type of another module of the assembly, or one that moved (II.22.14).</summary>
        ExportedType = 0x27,
        /// <summary>A resource (II.22.24).</summary>
        ManifestResource = 0x28,
        /// <summary>A nested type (II.22.32).</summary>
        NestedClass = 0x29,
        /// <summary>A generic parameter (II.22.20).</summary>
        GenericParam = 0x2A,
        /// <summary>A generic method with its arguments (II.22.29).</summary>
        MethodSpec = 0x2B,
        /// <summary>A constraint of a generic parameter (II.22.21).</summary>
        GenericParamConstraint = 0x2C,
    }

    /// <summary>A row of a table. As a number, 0x02000005 is row 5 of TypeDef.</summary>
    public struct Token : IEquatable<Token>
    {
        /// <summary>The table.</summary>
        public TableId Table { get; }

        /// <summary>The row, counted from 1.</summary>
        public int Row { get; }

        /// <summary>The token of a row.</summary>
        public Token(TableId table, int row)
        {
            Table = table;
            Row = row;
        }

        /// <summary>The token that is a number: 0x02000005 is row 5 of TypeDef.</summary>
        public Token(uint value)
        {
            Table = (TableId)(value >> 24);
            Row = (int)(value & 0xFFFFFF);
        }

        /// <summary>The token as a number, as reflection has it. It has the row only if that is at most 0xFFFFFF.</summary>
        public int Value { get { return (int)Table << 24 | Row; } }

        public bool Equals(Token other) { return Table == other.Table && Row == other.Row; }
        public override bool Equals(object other) { return other is Token && Equals((Token)other); }
        public override int GetHashCode() { return Value; }
        public override string ToString() { return Value.ToString("x8"); }
    }

    // Flags that System.Reflection has no enums for.

    /// <summary>What a method is to an event or a property (II.23.1.12).</summary>
    [Flags]
    public enum MethodSemanticsAttributes : uint
    {
        Setter = 0x1,
        Getter = 0x2,
        Other = 0x4,
        AddOn = 0x8,
        RemoveOn = 0x10,
        Fire = 0x20
    }

    /// <summary>Flags of a method of unmanaged code (II.23.1.8).</summary>
    [Flags]
    public enum PInvokeAttributes : uint
    {
        NoMangle = 0x1,
        CharSetMask = 0x6,
        CharSetNotSpec = 0,
        CharSetAnsi = 0x2,
        CharSetUnicode = 0x4,
        CharSetAuto = 0x6,
        SupportsLastError = 0x40,
        CallConvMask = 0x700,
        CallConvPlatformapi = 0x100,
        CallConvCdecl = 0x200,
        CallConvStdcall = 0x300,
        CallConvThiscall = 0x400,
        CallConvFastcall = 0x500
    }

    /// <summary>Flags of an assembly (II.23.1.2).</summary>
    [Flags]
    public enum AssemblyFlags : uint
    {
        PublicKey = 0x1,
        Retargetable = 0x100,
        DisableJITcompileOptimizer = 0x4000,
        EnableJITcompileTracking = 0x8000
    }

    /// <summary>Flags of the CLI header (II.25.3.3.1).</summary>
    [Flags]
    public enum CliHeaderFlags : uint
    {
        IlOnly = 0x1,
        Requires32Bit = 0x2,
        StrongNameSigned = 0x8,
        NativeEntryPoint = 0x10,
        TrackDebugData = 0x10000
    }

    /// <summary>The cell of a table that contains a byte (II.24.2.6).</summary>
    public struct Location
    {
        /// <summary>The row.</summary>
        public Token Row { get; }

        /// <summary>The column, counted from 0.</summary>
        public int Column { get; }

        /// <summary>The offset of the cell, in bytes from the start of the metadata root.</summary>
        public int Offset { get; }

        /// <summary>The size of the cell in bytes: 1, 2 or 4.</summary>
        public int Size { get; }

        internal Location(NativeLocation it)
        {
            Row = new Token(it.Table, (int)it.Row);
            Column = (int)it.Column;
            Offset = (int)it.Offset;
            Size = (int)it.Size;
        }
    }

    /// <summary>What differs between two assemblies.</summary>
    public enum DifferenceKind : byte
    {
        /// <summary>Nothing.</summary>
        None,
        /// <summary>The version string (II.24.2.1).</summary>
        Version,
        /// <summary>The bytes of <c>#US</c>, padded with zeros to a multiple of four (II.24.2.4).</summary>
        UserStrings,
        /// <summary>The number of rows of a table.</summary>
        RowCount,
        /// <summary>A cell of a row that both have.</summary>
        Cell,
    }

    /// <summary>The first difference between two assemblies. Fields that do not belong to its kind are 0.</summary>
    public struct Difference
    {
        /// <summary>What differs.</summary>
        public DifferenceKind Kind { get; }

        /// <summary>The table, and the row of a cell.</summary>
        public Token Row { get; }

        /// <summary>The column of a cell, counted from 0.</summary>
        public int Column { get; }

        /// <summary>The number of rows of the table in the first assembly.</summary>
        public int LeftCount { get; }

        /// <summary>The number of rows of the table in the second assembly.</summary>
        public int RightCount { get; }

        internal Difference(NativeDifference it)
        {
            Kind = it.Kind;
            Row = new Token(it.Table, (int)it.Row);
            Column = (int)it.Column;
            LeftCount = (int)it.LeftCount;
            RightCount = (int)it.RightCount;
        }
    }

    /// <summary>The rows of one table that a row of another owns, from <c>First</c> to before <c>Past</c>.</summary>
    public struct RowRange
    {
        public int First { get; }
        public int Past { get; }
        public int Count { get { return Past - First; } }

        public RowRange(int first, int past)
        {
            First = first;
            Past = past;
        }
    }

    /// <summary>An address in the image and the number of bytes there (II.25.2.3.3); 0 and 0 if there is nothing.</summary>
    [StructLayout(LayoutKind.Sequential)]
    public struct DataDirectory
    {
        public uint Rva;
        public uint Size;
    }

    /// <summary>The CLI header of a file (II.25.3.3), its offset, and where the metadata root begins and ends.</summary>
    [StructLayout(LayoutKind.Sequential)]
    public struct CliHeader
    {
        UIntPtr offset;
        UIntPtr rootStart;
        UIntPtr rootEnd;
        public uint Cb;
        public ushort MajorRuntimeVersion;
        public ushort MinorRuntimeVersion;
        public DataDirectory Metadata;
        public uint Flags;
        public uint EntryPointToken;
        public DataDirectory Resources;
        public DataDirectory StrongNameSignature;
        public DataDirectory CodeManagerTable;
        public DataDirectory VTableFixups;
        public DataDirectory ExportAddressTableJumps;
        public DataDirectory ManagedNativeHeader;

        /// <summary>The flags (II.25.3.3.1).</summary>
        public CliHeaderFlags Attributes { get { return (CliHeaderFlags)Flags; } }

        /// <summary>
        /// The entry point, a row of MethodDef or File; null if there is none, or it is native code.
        /// </summary>
        public Token? EntryPoint
        {
            get
            {
                bool isToken = EntryPointToken != 0 && (Attributes & CliHeaderFlags.NativeEntryPoint) == 0;
                return isToken ? new Token(EntryPointToken) : (Token?)null;
            }
        }

        public long Offset { get { return (long)offset; } }
        public long RootStart { get { return (long)rootStart; } }
        public long RootEnd { get { return (long)rootEnd; } }
    }

    [StructLayout(LayoutKind.Sequential)]
    struct NativeBytes
    {
        public IntPtr At;
        public UIntPtr Length;
    }

    [StructLayout(LayoutKind.Sequential)]
    struct NativeFault
    {
        public ulong Offset;
        public ushort Code;
        public byte Layer;
    }

    enum CellKind : byte { None, Number, Text, Blob, NullGuid, Guid, NullRow, Row, Start, Signature }

    [StructLayout(LayoutKind.Explicit, Size = 40)]
    struct NativeCell
    {
        [FieldOffset(0)] public NativeBytes Bytes;
        [FieldOffset(16)] public uint Number;
        [FieldOffset(20)] public CellKind Kind;
        [FieldOffset(21)] public TableId Table;
        [FieldOffset(22)] public Guid Guid;
    }

    enum ItemKind : byte { None, Fixed, Element, NamedCount, Field, Property }

    enum ValueForm : byte { None, Plain, Boxed, Array }

    [StructLayout(LayoutKind.Sequential)]
    struct NativeItem
    {
        public NativeBytes Name;
        public NativeBytes Text;
        public ulong Number;
        public ItemKind Kind;
        public ValueForm Form;
        public byte Type;
        public byte IsNull;
    }

    [StructLayout(LayoutKind.Sequential)]
    struct NativeLocation
    {
        public UIntPtr Offset;
        public UIntPtr Size;
        public UIntPtr Column;
        public uint Row;
        public TableId Table;
    }

    [StructLayout(LayoutKind.Sequential)]
    struct NativeDifference
    {
        public UIntPtr Column;
        public uint Row;
        public uint LeftCount;
        public uint RightCount;
        public DifferenceKind Kind;
        public TableId Table;
    }

    [StructLayout(LayoutKind.Sequential)]
    struct NativeRow
    {
        public IntPtr Cells;
        public UIntPtr Count;
        public TableId Table;
    }

    [StructLayout(LayoutKind.Sequential)]
    struct NativeRefusal
    {
        public UIntPtr Column;
        public uint Row;
        public ushort Code;
        public TableId Table;
    }

    /// <summary>A view, followed by a copy of the bytes that were opened.</summary>
    sealed class Memory : SafeHandle
    {
        // The layout of clim_view: the bytes of the root, five runs, and whether it is open.
        const int Size = 5208;
        const int Runs = 16;
        const int RunSize = 1028;
        const int RunCount = 5;

        public int Length { get; }

        public Memory(byte[] bytes) : base(IntPtr.Zero, true)
        {
            Length = bytes.Length;
            SetHandle(Marshal.AllocHGlobal((IntPtr)((long)Size + Length)));
            for (int at = 0; at < Size; at += 8)
                Marshal.WriteInt64(handle, at, 0);
            Marshal.WriteIntPtr(handle, 0, Bytes);
            for (int run = 0; run < RunCount; run++)
                Marshal.WriteInt32(handle, Runs + run * RunSize, 1);
            Marshal.Copy(bytes, 0, Bytes, Length);
        }

        public IntPtr Bytes { get { return handle + Size; } }

        /// <summary>The root, as the view has it. A caller holds the memory.</summary>
        public NativeBytes Root { get { return (NativeBytes)Marshal.PtrToStructure(handle, typeof(NativeBytes)); } }

        public override bool IsInvalid { get { return handle == IntPtr.Zero; } }

        protected override bool ReleaseHandle()
        {
            Marshal.FreeHGlobal(handle);
            return true;
        }
    }

    /// <summary>The functions of <c>c/clim.h</c>. An older library lacks those at the end.</summary>
    static class Native
    {
        const string Library = "clim";

        [DllImport(Library)]
        [return: MarshalAs(UnmanagedType.I1)]
        public static extern bool clim_check(byte[] file, UIntPtr length, ref NativeFault fault);

        [DllImport(Library)]
        [return: MarshalAs(UnmanagedType.I1)]
        public static extern bool clim_check_root(byte[] root, UIntPtr length, ref NativeFault fault);

        [DllImport(Library)]
        [return: MarshalAs(UnmanagedType.I1)]
        public static extern bool clim_read_header(byte[] file, UIntPtr length, ref CliHeader header, ref NativeFault fault);

        [DllImport(Library)]
        [return: MarshalAs(UnmanagedType.I1)]
        public static extern bool clim_open(IntPtr file, UIntPtr length, Memory view, ref NativeFault fault);

        [DllImport(Library)]
        [return: MarshalAs(UnmanagedType.I1)]
        public static extern bool clim_open_root(IntPtr root, UIntPtr length, Memory view, ref NativeFault fault);

        [DllImport(Library)]
        public static extern void clim_fault_name(ushort code, ref NativeBytes name);

        [DllImport(Library)]
        public static extern void clim_table_name(TableId table, ref NativeBytes name);

        [DllImport(Library)]
        public static extern UIntPtr clim_cell_count(TableId table);

        [DllImport(Library)]
        public static extern void clim_column_name(TableId table, UIntPtr column, ref NativeBytes name);

        [DllImport(Library)]
        public static extern void clim_version(Memory view, ref NativeBytes version);

        [DllImport(Library)]
        public static extern void clim_user(Memory view, ref NativeBytes user);

        [DllImport(Library)]
        public static extern uint clim_count(Memory view, TableId table);

        [DllImport(Library)]
        public static extern UIntPtr clim_cells(
            Memory view, TableId table, uint first, UIntPtr column, [In, Out] NativeCell[] cells, UIntPtr room);

        [DllImport(Library)]
        [return: MarshalAs(UnmanagedType.I1)]
        public static extern bool clim_members(
            Memory view, TableId owner, uint row, TableId member, ref uint first, ref uint past);

        [DllImport(Library)]
        public static extern uint clim_find_type(
            Memory view, byte[] space, UIntPtr spaceLength, byte[] name, UIntPtr nameLength);

        [DllImport(Library)]
        public static extern UIntPtr clim_rows_by_key(
            Memory view, TableId table, TableId keyTable, uint keyRow, [In, Out] uint[] rows, UIntPtr room);

        [DllImport(Library)]
        [return: MarshalAs(UnmanagedType.I1)]
        public static extern bool clim_open_within(
            IntPtr file, UIntPtr length, ulong budget, Memory view, ref NativeFault fault, ref byte spent);

        [DllImport(Library)]
        [return: MarshalAs(UnmanagedType.I1)]
        public static extern bool clim_open_root_within(
            IntPtr root, UIntPtr length, ulong budget, Memory view, ref NativeFault fault, ref byte spent);

        [DllImport(Library)]
        [return: MarshalAs(UnmanagedType.I1)]
        public static extern bool clim_check_within(
            byte[] file, UIntPtr length, ulong budget, ref NativeFault fault, ref byte spent);

        [DllImport(Library)]
        [return: MarshalAs(UnmanagedType.I1)]
        public static extern bool clim_check_root_within(
            byte[] root, UIntPtr length, ulong budget, ref NativeFault fault, ref byte spent);

        [DllImport(Library)]
        public static extern UIntPtr clim_explain(ushort code, [In, Out] byte[] buffer, UIntPtr room);

        [DllImport(Library)]
        public static extern UIntPtr clim_signature_text(
            Memory view, TableId table, uint row, UIntPtr column, [In, Out] byte[] buffer, UIntPtr room);

        [DllImport(Library)]
        [return: MarshalAs(UnmanagedType.I1)]
        public static extern bool clim_user_string(
            Memory view, uint token, [In, Out] ushort[] units, UIntPtr room, ref UIntPtr count, ref ushort flag);

        [DllImport(Library)]
        public static extern UIntPtr clim_canonical_root(Memory view, [In, Out] byte[] buffer, UIntPtr room);

        [DllImport(Library)]
        public static extern UIntPtr clim_digest(Memory view, [In, Out] byte[] digest);

        [DllImport(Library)]
        [return: MarshalAs(UnmanagedType.I1)]
        public static extern bool clim_where(Memory view, UIntPtr offset, ref NativeLocation location);

        [DllImport(Library)]
        public static extern UIntPtr clim_compare(Memory left, Memory right, ref NativeDifference difference);

        [DllImport(Library)]
        public static extern UIntPtr clim_tables(
            byte[] version, UIntPtr versionLength, byte[] user, UIntPtr userLength, [In] NativeRow[] rows, UIntPtr rowCount,
            [In, Out] byte[] buffer, UIntPtr room, ref NativeRefusal refusal);

        [DllImport(Library)]
        public static extern UIntPtr clim_embed(
            IntPtr file, UIntPtr size, byte[] root, UIntPtr rootLength, StrongName strongName,
            [In, Out] byte[] buffer, UIntPtr room, ref NativeFault fault);

        [DllImport(Library)]
        [return: MarshalAs(UnmanagedType.I1)]
        public static extern bool clim_offset_of(byte[] file, UIntPtr length, uint rva, uint size, ref UIntPtr offset);

        [DllImport(Library)]
        [return: MarshalAs(UnmanagedType.I1)]
        public static extern bool clim_offset_of(IntPtr file, UIntPtr length, uint rva, uint size, ref UIntPtr offset);

        [DllImport(Library)]
        public static extern UIntPtr clim_row_name(Memory view, uint token, [In, Out] byte[] buffer, UIntPtr room);

        [DllImport(Library)]
        public static extern UIntPtr clim_declaration(Memory view, uint token, [In, Out] byte[] buffer, UIntPtr room);

        [DllImport(Library)]
        public static extern UIntPtr clim_attribute_items(
            Memory view, uint row, [In, Out] NativeItem[] items, UIntPtr room);

        [DllImport(Library)]
        static extern uint clim_abi_version();

        // The interface that this file calls, CLIM_ABI_VERSION of clim.h.
        const uint Version = 1;
        // The length that most texts have at most.
        public const int Usual = 256;
        // CLIM_EQUAL: nothing differs.
        public const int Equal = 1;
        // The number of bytes of a digest.
        public const int DigestLength = 32;
        // CLIM_TOO_LONG and CLIM_NO_MEMORY.
        const ulong TooLong = ulong.MaxValue;
        const ulong NoMemory = TooLong - 1;
        // CLIM_BAD_FILE and CLIM_BAD_ROOT: clim_embed wrote a fault.
        public const ulong BadFile = NoMemory - 1;
        public const ulong BadRoot = BadFile - 1;
        // CLIM_UNLIKE to CLIM_NO_ROOM, the other reasons why it makes no copy.
        public const ulong Unlike = BadRoot - 1;
        public const ulong NoRoom = Unlike - (ulong)EmbedReason.NoRoom;

        // CLIM_NOT_DECODED.
        public const ulong NotDecoded = NoRoom - 1;

        static readonly Lazy<uint> version = new Lazy<uint>(ReadVersion);

        static uint ReadVersion()
        {
            try
            {
                return clim_abi_version();
            }
            catch (EntryPointNotFoundException)
            {
                // A library without this function has the first version.
                return Version;
            }
        }

        /// <summary>Throws if the library has another interface than this file calls.</summary>
        public static void CheckVersion()
        {
            if (version.Value != Version)
                throw new NotSupportedException(
                    "libclim.so has the interface " + version.Value + ", and Clim.cs needs " + Version);
        }

        public delegate UIntPtr Writing(byte[] buffer, UIntPtr room);

        /// <summary>
        /// The text that a call writes into a buffer, and whose length it returns; null if it is too long.
        /// </summary>
        public static string WrittenText(Writing write)
        {
            for (var buffer = new byte[Usual]; ;)
            {
                ulong length = (ulong)write(buffer, Length(buffer));
                if (length <= (ulong)buffer.Length)
                    return Encoding.UTF8.GetString(buffer, 0, (int)length);
                // CLIM_TOO_LONG, or a length that no array has.
                if (length > int.MaxValue)
                    return null;
                buffer = new byte[length];
            }
        }

        /// <summary>What <c>clim explain</c> prints of a rule, in lines that are not broken.</summary>
        public static string Explanation(int code)
        {
            return WrittenText((buffer, room) => Newer(() => clim_explain((ushort)code, buffer, room)));
        }

        /// <summary>
        /// The text that a call writes into a buffer, and whose length it returns; null if there is none.
        /// </summary>
        public static string RowText(Writing write)
        {
            for (var buffer = new byte[Usual]; ;)
            {
                int length = CheckedLength((ulong)Newer(() => write(buffer, Length(buffer))), "the text of the row has more than 65,536 bytes");
                if (length <= buffer.Length)
                    return length == 0 ? null : Encoding.ASCII.GetString(buffer, 0, length);
                buffer = new byte[length];
            }
        }

        /// <summary>The length of a canonical root, or the result of a comparison, as a call returned it.</summary>
        public static int RootLength(Func<UIntPtr> call)
        {
            return CheckedLength((ulong)Newer(call));
        }

        /// <summary>The same of what the call returned.</summary>
        public static int CheckedLength(ulong length, string tooLong = "the root, or the copy with it, has more than 2^30 bytes")
        {
            if (length == TooLong)
                throw new OverflowException(tooLong);
            if (length == NoMemory)
                throw new OutOfMemoryException();
            return (int)length;
        }

        /// <summary>Makes a call of a function that an older library lacks.</summary>
        public static T Newer<T>(Func<T> call)
        {
            try
            {
                return call();
            }
            catch (EntryPointNotFoundException missing)
            {
                throw new NotSupportedException("this libclim.so is older than Clim.cs: " + missing.Message, missing);
            }
        }

        public static UIntPtr Length(byte[] bytes)
        {
            return (UIntPtr)bytes.Length;
        }

        /// <summary>A copy of bytes for a call: another thread may change those of the caller meanwhile.</summary>
        public static byte[] CopyOf(byte[] bytes)
        {
            if (bytes == null)
                throw new ArgumentNullException("bytes");
            return (byte[])bytes.Clone();
        }
    }

    /// <summary>The name of a type in the value of a custom attribute, as <c>System.Type</c> writes it.</summary>
    public struct TypeName : IEquatable<TypeName>
    {
        /// <summary>The name, for example <c>System.String, mscorlib</c>.</summary>
        public string Name { get; }

        public TypeName(string name)
        {
            Name = name;
        }

        public bool Equals(TypeName other) { return Name == other.Name; }
        public override bool Equals(object other) { return other is TypeName && Equals((TypeName)other); }
        public override int GetHashCode() { return Name == null ? 0 : Name.GetHashCode(); }
        public override string ToString() { return Name; }
    }

    /// <summary>A named argument of a custom attribute (II.23.3).</summary>
    public struct NamedArgument
    {
        /// <summary>The name of the field or the property that it sets.</summary>
        public string Name { get; }

        /// <summary>Whether it sets a property.</summary>
        public bool IsProperty { get; }

        /// <summary>The value, as in <see cref="Arguments.Fixed"/>.</summary>
        public object Value { get; }

        internal NamedArgument(string name, bool isProperty, object value)
        {
            Name = name;
            IsProperty = isProperty;
            Value = value;
        }
    }

    /// <summary>The arguments of a custom attribute (II.23.3).</summary>
    public sealed class Arguments
    {
        /// <summary>
        /// The arguments of the constructor: a <c>bool</c>, a <c>char</c>, a number of its own type, a <c>string</c>, a
        /// <see cref="TypeName"/>, or an <c>object[]</c> for an array. That of an enum is its number, and that of an object is
        /// the value in it. Null is null.
        /// </summary>
        public object[] Fixed { get; }

        /// <summary>The fields and properties that are set, in order.</summary>
        public NamedArgument[] Named { get; }

        // The arguments that items form. A call holds the memory to which their texts belong.
        internal Arguments(NativeItem[] items, int count)
        {
            var fixedOnes = new List<object>();
            var named = new List<NamedArgument>();
            object[] elements = null;
            int next = 0;
            for (int index = 0; index < count; index++)
            {
                var item = items[index];
                var value = ValueOf(item);
                if (item.Form == ValueForm.Array)
                {
                    elements = (object[])value;
                    next = 0;
                }
                if (item.Kind == ItemKind.Fixed)
                    fixedOnes.Add(value);
                else if (item.Kind == ItemKind.Element)
                    elements[next++] = value;
                else if (item.Kind != ItemKind.NamedCount)
                    named.Add(new NamedArgument(Assembly.NameOf(item.Name), item.Kind == ItemKind.Property, value));
            }
            Fixed = fixedOnes.ToArray();
            Named = named.ToArray();
        }

        // The value of an item; an array has no elements yet.
        static object ValueOf(NativeItem item)
        {
            if (item.IsNull != 0)
                return null;
            if (item.Form == ValueForm.Array)
                return new object[item.Number];
            unchecked
            {
                switch (item.Type)
                {
                    case 0x02: return item.Number != 0;
                    case 0x03: return (char)item.Number;
                    case 0x04: return (sbyte)item.Number;
                    case 0x05: return (byte)item.Number;
                    case 0x06: return (short)item.Number;
                    case 0x07: return (ushort)item.Number;
                    case 0x08: return (int)item.Number;
                    case 0x09: return (uint)item.Number;
                    case 0x0A: return (long)item.Number;
                    case 0x0B: return item.Number;
                    case 0x0C: return BitConverter.ToSingle(BitConverter.GetBytes((uint)item.Number), 0);
                    case 0x0D: return BitConverter.Int64BitsToDouble((long)item.Number);
                    case 0x0E: return Assembly.NameOf(item.Text);
                    case 0x50: return new TypeName(Assembly.NameOf(item.Text));
                    default: return null;
                }
            }
        }
    }

    /// <summary>The cells of a row, in the order of its columns. Rows read themselves from it.</summary>
    public sealed class CellReader
    {
        readonly Assembly assembly;
        readonly NativeCell[][] columns;
        int row;
        int column;

        internal CellReader(Assembly assembly, NativeCell[][] columns)
        {
            this.assembly = assembly;
            this.columns = columns;
        }

        internal void MoveTo(int index, Token token)
        {
            row = index;
            column = 0;
            Token = token;
        }

        /// <summary>The row.</summary>
        public Token Token { get; private set; }

        internal uint Number() { return Next(CellKind.Number, CellKind.Number).Number; }
        internal int Start() { return (int)Next(CellKind.Start, CellKind.Start).Number; }
        internal string Text() { return assembly.TextOf(Next(CellKind.Text, CellKind.Text).Bytes); }
        internal byte[] Blob() { return assembly.BytesOf(Next(CellKind.Blob, CellKind.Blob).Bytes); }
        internal byte[] Signature() { return assembly.BytesOf(Next(CellKind.Signature, CellKind.Signature).Bytes); }

        internal Guid? Guid()
        {
            var cell = Next(CellKind.Guid, CellKind.NullGuid);
            return cell.Kind == CellKind.Guid ? cell.Guid : (Guid?)null;
        }

        internal Token Row()
        {
            var cell = Next(CellKind.Row, CellKind.Row);
            return new Token(cell.Table, (int)cell.Number);
        }

        internal Token? RowOrNull()
        {
            var cell = Next(CellKind.Row, CellKind.NullRow);
            return cell.Kind == CellKind.Row ? new Token(cell.Table, (int)cell.Number) : (Token?)null;
        }

        NativeCell Next(CellKind kind, CellKind other)
        {
            var cell = columns[column++][row];
            if (cell.Kind != kind && cell.Kind != other)
                throw new InvalidOperationException("libclim.so wrote a cell of kind " + cell.Kind + " for one of kind " + kind);
            return cell;
        }
    }

    /// <summary>A row of a table: a struct of this file.</summary>
    public interface IRow
    {
        /// <summary>The table.</summary>
        TableId Table { get; }

        /// <summary>Reads the row from its cells.</summary>
        void Read(CellReader cells);
    }

    /// <summary>
    /// An opened file, or an opened metadata root. After <see cref="Dispose"/> each call throws
    /// <see cref="ObjectDisposedException"/>. Rows that were read before stay valid.
    /// </summary>
    public sealed class Assembly : IDisposable
    {
        // The numbers of rows whose cells are read at a time, at first and at most.
        const int FirstPiece = 256;
        const int LargestPiece = 1 << 14;
        // The number of rows that a look-up by key expects.
        const int Expected = 16;
        // The number of types in one full name.
        const int Depth = 64;
        // The number of bytes by which a copy of a file is mostly longer than the file and its root.
        const int Padding = 1 << 16;
        // The largest row that a token can name.
        const int LargestRow = 0xFFFFFF;
        // The columns of the name and the namespace of a type.
        const int NameColumn = 1;
        const int NamespaceColumn = 2;
        // The number of bytes of a UTF-16 unit in UTF-8, at most.
        const int MostBytes = 3;
        // The number of bytes that a file has at most; a longer one is fault 101. And how many are read at a time.
        const long Longest = 1 << 30;
        const int Part = 1 << 16;

        readonly Memory memory;
        readonly bool isBare;
        // Texts by their addresses, for other rows that refer to them, and the number of characters that may be kept still. Texts
        // of a crafted file can overlap, and then are much longer than the file.
        readonly Dictionary<IntPtr, string> texts = new Dictionary<IntPtr, string>();
        int unused;
        // The type that encloses each type, by their rows; 0 if none does. A look-up for each type would walk the entire table,
        // if its rows are not in order.
        readonly Lazy<int[]> enclosing;

        delegate bool Opening(IntPtr bytes, UIntPtr length, Memory view, ref NativeFault fault);

        Assembly(byte[] bytes, bool isBare, Opening open)
        {
            if (bytes == null)
                throw new ArgumentNullException("bytes");
            Native.CheckVersion();
            var fault = new NativeFault();
            memory = new Memory(bytes);
            this.isBare = isBare;
            unused = memory.Length;
            enclosing = new Lazy<int[]>(ReadEnclosing, LazyThreadSafetyMode.PublicationOnly);
            bool opened = false;
            try
            {
                opened = open(memory.Bytes, (UIntPtr)memory.Length, memory, ref fault);
            }
            finally
            {
                if (!opened)
                    memory.Dispose();
            }
            if (!opened)
                throw FaultOf(fault);
        }

        /// <summary>Opens a file. The bytes are copied.</summary>
        /// <exception cref="ClimFault">The file breaks a rule. It is that of the first one.</exception>
        public static Assembly Open(byte[] file)
        {
            return new Assembly(file, false, Native.clim_open);
        }

        /// <summary>Reads and opens a file.</summary>
        /// <exception cref="ClimFault">The file breaks a rule. It is that of the first one.</exception>
        /// <exception cref="IOException">The file cannot be read.</exception>
        public static Assembly Open(string path)
        {
            return Open(ReadFile(path));
        }

        /// <summary>The same within a budget, as that of <see cref="Open(byte[], ulong)"/>.</summary>
        /// <exception cref="ClimFault">The file breaks a rule. It is that of the first one.</exception>
        /// <exception cref="BudgetSpentException">The budget is spent.</exception>
        /// <exception cref="IOException">The file cannot be read.</exception>
        /// <exception cref="NotSupportedException">The library is older than this file.</exception>
        public static Assembly Open(string path, ulong budget)
        {
            return Open(ReadFile(path), budget);
        }

        /// <summary>Opens a file that is what a stream has from its position on. The stream is not closed.</summary>
        /// <exception cref="ClimFault">The file breaks a rule. It is that of the first one.</exception>
        /// <exception cref="IOException">The stream cannot be read.</exception>
        public static Assembly Open(Stream stream)
        {
            return Open(ReadStream(stream));
        }

        /// <summary>The same within a budget, as that of <see cref="Open(byte[], ulong)"/>.</summary>
        /// <exception cref="ClimFault">The file breaks a rule. It is that of the first one.</exception>
        /// <exception cref="BudgetSpentException">The budget is spent.</exception>
        /// <exception cref="IOException">The stream cannot be read.</exception>
        /// <exception cref="NotSupportedException">The library is older than this file.</exception>
        public static Assembly Open(Stream stream, ulong budget)
        {
            return Open(ReadStream(stream), budget);
        }

        static byte[] ReadFile(string path)
        {
            using (var file = new FileStream(path, FileMode.Open, FileAccess.Read, FileShare.Read))
                return ReadStream(file);
        }

        /// <summary>The bytes of a stream; of a longer one than a file may be, enough for its fault.</summary>
        static byte[] ReadStream(Stream stream)
        {
            if (stream == null)
                throw new ArgumentNullException("stream");
            using (var content = new MemoryStream())
            {
                var part = new byte[Part];
                for (int count; content.Length <= Longest && (count = stream.Read(part, 0, part.Length)) > 0;)
                    content.Write(part, 0, count);
                return content.ToArray();
            }
        }

        /// <summary>Opens a bare metadata root, without the file around it (II.24.2.1). The bytes are copied.</summary>
        /// <exception cref="ClimFault">The root breaks a rule. It is that of the first one.</exception>
        public static Assembly OpenRoot(byte[] root)
        {
            return new Assembly(root, true, Native.clim_open_root);
        }

        /// <summary>
        /// Opens a file within a budget: the number of bytes of texts and signatures that it may check at most.
        /// </summary>
        /// <exception cref="ClimFault">The file breaks a rule. It is that of the first one.</exception>
        /// <exception cref="BudgetSpentException">The budget is spent.</exception>
        /// <exception cref="NotSupportedException">The library is older than this file.</exception>
        public static Assembly Open(byte[] file, ulong budget)
        {
            return new Assembly(file, false, Within(Native.clim_open_within, budget));
        }

        /// <summary>Opens a bare metadata root within a budget.</summary>
        /// <exception cref="ClimFault">The root breaks a rule. It is that of the first one.</exception>
        /// <exception cref="BudgetSpentException">The budget is spent.</exception>
        /// <exception cref="NotSupportedException">The library is older than this file.</exception>
        public static Assembly OpenRoot(byte[] root, ulong budget)
        {
            return new Assembly(root, true, Within(Native.clim_open_root_within, budget));
        }

        delegate bool BoundedOpening(
            IntPtr bytes, UIntPtr length, ulong budget, Memory view, ref NativeFault fault, ref byte spent);

        static Opening Within(BoundedOpening open, ulong budget)
        {
            return (IntPtr bytes, UIntPtr length, Memory view, ref NativeFault fault) =>
            {
                byte spent = 0;
                var found = new NativeFault();
                bool opened = Native.Newer(() => open(bytes, length, budget, view, ref found, ref spent));
                if (spent != 0)
                    throw new BudgetSpentException();
                fault = found;
                return opened;
            };
        }

        /// <summary>The fault of the first rule that a file breaks, or null if it satisfies all rules.</summary>
        public static ClimFault Check(byte[] file)
        {
            var fault = new NativeFault();
            var copy = Native.CopyOf(file);
            return Native.clim_check(copy, Native.Length(copy), ref fault) ? null : FaultOf(fault);
        }

        /// <summary>The same for a bare metadata root.</summary>
        public static ClimFault CheckRoot(byte[] root)
        {
            var fault = new NativeFault();
            var copy = Native.CopyOf(root);
            return Native.clim_check_root(copy, Native.Length(copy), ref fault) ? null : FaultOf(fault);
        }

        /// <summary>The same as <see cref="Check(byte[])"/>, within a budget as that of <see cref="Open(byte[], ulong)"/>.</summary>
        /// <exception cref="BudgetSpentException">The budget is spent.</exception>
        /// <exception cref="NotSupportedException">The library is older than this file.</exception>
        public static ClimFault Check(byte[] file, ulong budget)
        {
            byte spent = 0;
            var fault = new NativeFault();
            var copy = Native.CopyOf(file);
            bool isWhole = Native.Newer(
                () => Native.clim_check_within(copy, Native.Length(copy), budget, ref fault, ref spent));
            return Checked(isWhole, fault, spent);
        }

        /// <summary>The same for a bare metadata root.</summary>
        /// <exception cref="BudgetSpentException">The budget is spent.</exception>
        /// <exception cref="NotSupportedException">The library is older than this file.</exception>
        public static ClimFault CheckRoot(byte[] root, ulong budget)
        {
            byte spent = 0;
            var fault = new NativeFault();
            var copy = Native.CopyOf(root);
            bool isWhole = Native.Newer(
                () => Native.clim_check_root_within(copy, Native.Length(copy), budget, ref fault, ref spent));
            return Checked(isWhole, fault, spent);
        }

        static ClimFault Checked(bool isWhole, NativeFault fault, byte spent)
        {
            if (spent != 0)
                throw new BudgetSpentException();
            return isWhole ? null : FaultOf(fault);
        }

        /// <summary>The CLI header of a file. The tables are not checked.</summary>
        /// <exception cref="ClimFault">The headers break a rule.</exception>
        public static CliHeader ReadHeader(byte[] file)
        {
            var header = new CliHeader();
            var fault = new NativeFault();
            var copy = Native.CopyOf(file);
            if (!Native.clim_read_header(copy, Native.Length(copy), ref header, ref fault))
                throw FaultOf(fault);
            return header;
        }

        /// <summary>
        /// The offset in a file of bytes at a relative virtual address; null if the file does not have them, or is no image
        /// (II.25.3). They are in the first section that contains all of them. Only the PE headers are checked.
        /// </summary>
        /// <remarks>Each call copies the file: for many addresses open it, and call <see cref="BytesAt"/>.</remarks>
        /// <exception cref="NotSupportedException">The library is older than this file.</exception>
        public static long? OffsetOf(byte[] file, uint rva, uint size)
        {
            var offset = UIntPtr.Zero;
            var copy = Native.CopyOf(file);
            bool found = Native.Newer(() => Native.clim_offset_of(copy, Native.Length(copy), rva, size, ref offset));
            return found ? (long)offset : (long?)null;
        }

        /// <summary>The bytes of the file at a relative virtual address; null if the file does not have them.</summary>
        /// <exception cref="InvalidOperationException">It is a bare root, without a file around it.</exception>
        /// <exception cref="NotSupportedException">The library is older than this file.</exception>
        public byte[] BytesAt(uint rva, uint size)
        {
            if (isBare)
                throw new InvalidOperationException("a bare root has no file around it");
            return Held(() =>
            {
                var offset = UIntPtr.Zero;
                bool found = Native.Newer(
                    () => Native.clim_offset_of(memory.Bytes, (UIntPtr)memory.Length, rva, size, ref offset));
                if (!found)
                    return null;
                var start = (IntPtr)((long)memory.Bytes + (long)offset);
                return Copied(new NativeBytes { At = start, Length = (UIntPtr)size });
            });
        }

        /// <summary>The name of a table, for example <c>TypeDef</c>.</summary>
        public static string TableName(TableId table)
        {
            var name = NoBytes;
            Native.clim_table_name(table, ref name);
            return NameOf(name);
        }

        /// <summary>The names of the columns of a table.</summary>
        public static string[] ColumnNames(TableId table)
        {
            var names = new string[(int)Native.clim_cell_count(table)];
            for (int column = 0; column < names.Length; column++)
            {
                var name = NoBytes;
                Native.clim_column_name(table, (UIntPtr)column, ref name);
                names[column] = NameOf(name);
            }
            return names;
        }

        /// <summary>Closes the assembly and frees its memory.</summary>
        public void Dispose()
        {
            memory.Dispose();
            lock (texts)
                texts.Clear();
        }

        void CheckOpen()
        {
            if (memory.IsClosed)
                throw new ObjectDisposedException(typeof(Assembly).FullName);
        }

        /// <summary>The version string of the root, for example <c>v4.0.30319</c> (II.24.2.1).</summary>
        public string Version
        {
            get
            {
                var version = NoBytes;
                Native.clim_version(memory, ref version);
                return Encoding.UTF8.GetString(BytesOf(version));
            }
        }

        /// <summary>The bytes of <c>#US</c>, as they are in the root (II.24.2.4).</summary>
        public byte[] UserStrings
        {
            get
            {
                var user = NoBytes;
                Native.clim_user(memory, ref user);
                return BytesOf(user);
            }
        }

        /// <summary>The number of rows in a table.</summary>
        public int Count(TableId table)
        {
            return (int)Native.clim_count(memory, table);
        }

        /// <summary>The rows of a table, for example <c>Rows&lt;TypeDefRow&gt;()</c>.</summary>
        public IEnumerable<T> Rows<T>() where T : struct, IRow
        {
            return Rows<T>(new RowRange(1, Count(default(T).Table) + 1));
        }

        /// <summary>The rows of a table in a range, for example that of <see cref="Members"/>.</summary>
        public IEnumerable<T> Rows<T>(RowRange range) where T : struct, IRow
        {
            var table = default(T).Table;
            foreach (var piece in Pieces(table, range))
            {
                var cells = new CellReader(this, ReadColumns(table, piece));
                for (int row = piece.First; row < piece.Past; row++)
                    yield return Read<T>(cells, row - piece.First, new Token(table, row));
            }
        }

        /// <summary>A row, counted from 1.</summary>
        /// <exception cref="ArgumentOutOfRangeException">The table has no such row.</exception>
        public T Row<T>(int number) where T : struct, IRow
        {
            var table = default(T).Table;
            if (number < 1 || number > Count(table))
                throw new ArgumentOutOfRangeException("number", table + " has no row " + number);
            var cells = new CellReader(this, ReadColumns(table, new RowRange(number, number + 1)));
            return Read<T>(cells, 0, new Token(table, number));
        }

        /// <summary>The rows of a table that a row owns (II.22). It is empty if the row owns none of that table.</summary>
        public RowRange Members(Token owner, TableId member)
        {
            uint first = 1, past = 1;
            Native.clim_members(memory, owner.Table, (uint)owner.Row, member, ref first, ref past);
            return new RowRange((int)first, (int)past);
        }

        /// <summary>The fields of a type.</summary>
        public IEnumerable<FieldRow> Fields(TypeDefRow type)
        {
            return Rows<FieldRow>(Members(type.Token, TableId.Field));
        }

        /// <summary>The methods of a type.</summary>
        public IEnumerable<MethodDefRow> Methods(TypeDefRow type)
        {
            return Rows<MethodDefRow>(Members(type.Token, TableId.MethodDef));
        }

        /// <summary>The rows of Param of a method.</summary>
        public IEnumerable<ParamRow> Params(MethodDefRow method)
        {
            return Rows<ParamRow>(Members(method.Token, TableId.Param));
        }

        /// <summary>The first type with a namespace and a name, or null.</summary>
        public TypeDefRow? FindType(string space, string name)
        {
            byte[] spaceBytes = Encoding.UTF8.GetBytes(space), nameBytes = Encoding.UTF8.GetBytes(name);
            uint row = Native.clim_find_type(
                memory, spaceBytes, Native.Length(spaceBytes), nameBytes, Native.Length(nameBytes));
            return row == 0 ? (TypeDefRow?)null : Row<TypeDefRow>((int)row);
        }

        /// <summary>
        /// The first type whose full name it is, or null: <c>System.String</c>, or <c>Hello.Greeter/Settings</c> for a type that
        /// is nested in another. All before the last dot of a part is the namespace, as in a path of <c>clim outline</c>.
        /// </summary>
        /// <remarks>It looks at each type once.</remarks>
        public TypeDefRow? FindType(string fullName)
        {
            if (fullName == null)
                throw new ArgumentNullException("fullName");
            CheckOpen();
            var parts = fullName.Split('/');
            var spaces = Array.ConvertAll(parts, it => it.Substring(0, Math.Max(it.LastIndexOf('.'), 0)));
            var names = Array.ConvertAll(parts, it => it.Substring(it.LastIndexOf('.') + 1));
            if (parts.Length == 1)
            {
                var first = FindType(spaces[0], names[0]);
                if (first == null || EnclosingType(first.Value.Token) == 0)
                    return first;
            }
            int row = FindPath(spaces, names);
            return row == 0 ? (TypeDefRow?)null : Row<TypeDefRow>(row);
        }

        // The row of the first type with these namespaces and names of its own and of the types that enclose it, or 0.
        int FindPath(string[] spaces, string[] names)
        {
            // By rows: how many of the names end with that of the type, if those before it are of the types that enclose it. The
            // row of an enclosing type is lower (rule 604).
            var depths = new int[Count(TableId.TypeDef) + 1];
            foreach (var piece in Pieces(TableId.TypeDef, new RowRange(1, depths.Length)))
            {
                var name = ReadColumn(TableId.TypeDef, piece.First, NameColumn, piece.Count);
                var space = ReadColumn(TableId.TypeDef, piece.First, NamespaceColumn, piece.Count);
                for (int index = 0; index < piece.Count; index++)
                {
                    int row = piece.First + index, outer = EnclosingType(new Token(TableId.TypeDef, row)), depth = depths[outer];
                    bool isOnPath = outer == 0 || depth > 0;
                    if (!isOnPath || depth == names.Length)
                        continue;
                    if (!IsText(name[index].Bytes, names[depth]) || !IsText(space[index].Bytes, spaces[depth]))
                        continue;
                    depths[row] = depth + 1;
                    if (depth + 1 == names.Length)
                        return row;
                }
            }
            return 0;
        }

        // Whether bytes of the root are a text. They are not read if they are too few or too many for it.
        bool IsText(NativeBytes bytes, string text)
        {
            long length = (long)bytes.Length;
            return length >= text.Length && length <= (long)MostBytes * text.Length && TextOf(bytes) == text;
        }

        /// <summary>
        /// The name of a row in the notation of ILAsm (II.5.3), such as <c>Hello.Greeter::Greet</c> or
        /// <c>Namespace.Outer/Inner</c>; null if there is no such row. A name that is no identifier is quoted, as in
        /// <c>'&lt;Module&gt;'</c>; so the text is ASCII. A row without a name is <c>..</c>.
        /// </summary>
        /// <exception cref="OverflowException">It has more than 65,536 bytes, as in crafted files.</exception>
        /// <exception cref="NotSupportedException">The library is older than this file.</exception>
        public string NameOf(Token row)
        {
            if (row.Row < 0 || row.Row > LargestRow)
                return null;
            return Native.RowText((buffer, room) => Native.clim_row_name(memory, (uint)row.Value, buffer, room));
        }

        /// <summary>
        /// The declaration of a type, a field, a method or a property, in the notation of ILAsm: of a type its full name, of a
        /// field its signature and its own name (II.16.1), of a method "string Hello.Greeter::Greet(string name, int32 times)"
        /// (II.15.3), and of a property "instance int32 Hello.Greeter::Item(string)" (II.17). The names in it are those of
        /// <see cref="NameOf(Token)"/>. It is null for any other row, and if there is no such row.
        /// </summary>
        /// <exception cref="OverflowException">It has more than 65,536 bytes, as in crafted files.</exception>
        /// <exception cref="OutOfMemoryException">Memory ran out.</exception>
        /// <exception cref="NotSupportedException">The library is older than this file.</exception>
        public string Declaration(Token row)
        {
            if (row.Row < 0 || row.Row > LargestRow)
                return null;
            return Native.RowText((buffer, room) => Native.clim_declaration(memory, (uint)row.Value, buffer, room));
        }

        /// <summary>
        /// The arguments of a custom attribute (II.22.10, II.23.3); null if its value is not decoded. It is decoded by the types
        /// of the constructor's parameters. That fails for an enum of another file, whose size is unknown, for more than 64
        /// parameters, and for bytes that are no value.
        /// </summary>
        /// <remarks>
        /// Time and memory are in proportion to the bytes of the value, which rows of a crafted file may share.
        /// </remarks>
        /// <exception cref="NotSupportedException">The library is older than this file.</exception>
        public Arguments ArgumentsOf(CustomAttributeRow attribute)
        {
            return Held(() => ReadArguments((uint)attribute.Token.Row));
        }

        Arguments ReadArguments(uint row)
        {
            for (var items = new NativeItem[Expected]; ;)
            {
                for (int index = 0; index < items.Length; index++)
                    items[index].Name = items[index].Text = NoBytes;
                ulong count = (ulong)Native.Newer(
                    () => Native.clim_attribute_items(memory, row, items, (UIntPtr)items.Length));
                if (count == 0 || count == Native.NotDecoded)
                    return null;
                if (count <= (ulong)items.Length)
                    return new Arguments(items, (int)count);
                items = new NativeItem[count];
            }
        }

        /// <summary>The rows of a table whose key is a row, in ascending order; none if the table has no key.</summary>
        /// <remarks>
        /// They are found by binary search. Each call passes over all rows if these are not in order of their keys, as in crafted
        /// files; to look up many keys, read the table once.
        /// </remarks>
        public T[] ByKey<T>(Token key) where T : struct, IRow
        {
            var numbers = NumbersByKey(default(T).Table, key);
            var rows = new List<T>(numbers.Length);
            for (int first = 0, past; first < numbers.Length; first = past)
            {
                past = first + 1;
                // Rows that follow one another are read together.
                while (past < numbers.Length && numbers[past] == numbers[past - 1] + 1)
                    past++;
                rows.AddRange(Rows<T>(new RowRange((int)numbers[first], (int)numbers[past - 1] + 1)));
            }
            return rows.ToArray();
        }

        uint[] NumbersByKey(TableId table, Token key)
        {
            for (int room = Expected; ; room *= Expected)
            {
                var rows = new uint[room];
                int count = (int)Native.clim_rows_by_key(memory, table, key.Table, (uint)key.Row, rows, (UIntPtr)room);
                if (count < room)
                {
                    Array.Resize(ref rows, count);
                    return rows;
                }
            }
        }

        /// <summary>
        /// The signature of a row in the notation of ILAsm (II.7.1, II.15.3), such as "method instance string *(int32, class
        /// 01000007)". A type is written as its token. It is null if there is no such row, if it has no signature, or if the
        /// text has more than 65,536 bytes, as in crafted files.
        /// </summary>
        /// <exception cref="NotSupportedException">The library is older than this file.</exception>
        public string SignatureText(Token row)
        {
            int column = SignatureColumn(row.Table);
            if (column < 0)
                return null;
            string text = Native.WrittenText((buffer, room) => Native.Newer(() => Native.clim_signature_text(
                memory, row.Table, (uint)row.Row, (UIntPtr)column, buffer, room)));
            return text == "" ? null : text;
        }

        // The column of the signatures of a table, or -1. No table has two.
        internal static int SignatureColumn(TableId table)
        {
            switch (table)
            {
                case TableId.StandAloneSig: case TableId.TypeSpec: return 0;
                case TableId.MethodSpec: return 1;
                case TableId.Field: case TableId.MemberRef: case TableId.Property: return 2;
                case TableId.MethodDef: return 4;
                default: return -1;
            }
        }

        /// <summary>
        /// The user string of a token such as 0x70000001, which <c>ldstr</c> has (II.24.2.4). It is null if the token is
        /// another one, or <c>#US</c> has no user string there.
        /// </summary>
        /// <exception cref="NotSupportedException">The library is older than this file.</exception>
        public string UserString(int token)
        {
            for (var units = new ushort[Native.Usual]; ;)
            {
                var count = UIntPtr.Zero;
                ushort flag = 0;
                bool found = Native.Newer(() => Native.clim_user_string(
                    memory, (uint)token, units, (UIntPtr)units.Length, ref count, ref flag));
                if (!found)
                    return null;
                if ((ulong)count <= (ulong)units.Length)
                    return new string(Array.ConvertAll(units, unit => (char)unit), 0, (int)count);
                units = new ushort[(ulong)count];
            }
        }

        /// <summary>
        /// The canonical root, which <c>clim rewrite</c> writes (II.24.2). Two files have the same canonical root if and
        /// only if they have the same metadata.
        /// </summary>
        /// <exception cref="OverflowException">It would have more than 2^30 bytes.</exception>
        /// <exception cref="OutOfMemoryException">Memory ran out.</exception>
        /// <exception cref="NotSupportedException">The library is older than this file.</exception>
        public byte[] CanonicalRoot()
        {
            for (var root = new byte[memory.Length]; ;)
            {
                int length = Native.RootLength(() => Native.clim_canonical_root(memory, root, (UIntPtr)root.Length));
                bool fits = length <= root.Length;
                if (length != root.Length)
                    Array.Resize(ref root, length);
                if (fits)
                    return root;
            }
        }

        /// <summary>The SHA-256 of the canonical root.</summary>
        /// <exception cref="OverflowException">The root would have more than 2^30 bytes.</exception>
        /// <exception cref="OutOfMemoryException">Memory ran out.</exception>
        /// <exception cref="NotSupportedException">The library is older than this file.</exception>
        public byte[] Digest()
        {
            var digest = new byte[Native.DigestLength];
            Native.RootLength(() => Native.clim_digest(memory, digest));
            return digest;
        }

        /// <summary>
        /// A copy of the file with another metadata root, which <c>clim embed</c> writes (II.25). <see cref="Open(byte[])"/>
        /// opens it, with the metadata of the root. The root goes where the old one is, if it fits there, and otherwise into a
        /// new section, or into a longer last one.
        /// </summary>
        /// <param name="root">
        /// The root. It must lead into the file: it has the same number of methods and of fields with data, with the same RVAs,
        /// the same user strings, and no fewer rows of File. So take the rows of the file by
        /// <see cref="Tables.Of"/>, change names, flags or signatures, and give what <see cref="Tables.Root"/> returns. Null
        /// means the file's own canonical root. The bytes are copied.
        /// </param>
        /// <param name="strongName">Whether the strong name of the file is kept or cleared.</param>
        /// <exception cref="ClimFault">The root breaks a rule. Its offset counts in the root.</exception>
        /// <exception cref="EmbedException">The root does not lead into the file, or cannot be put there.</exception>
        /// <exception cref="InvalidOperationException">It is a bare root, without a file around it.</exception>
        /// <exception cref="ArgumentOutOfRangeException">There is no such choice for the strong name.</exception>
        /// <exception cref="OverflowException">The root or the copy would have more than 2^30 bytes.</exception>
        /// <exception cref="OutOfMemoryException">Memory ran out.</exception>
        /// <exception cref="NotSupportedException">The library is older than this file.</exception>
        public byte[] Embed(byte[] root = null, StrongName strongName = StrongName.Keep)
        {
            if (isBare)
                throw new InvalidOperationException("a bare root has no file around it");
            if (strongName != StrongName.Keep && strongName != StrongName.Clear)
                throw new ArgumentOutOfRangeException("strongName");
            var given = root == null ? new byte[0] : Native.CopyOf(root);
            // The library takes no bytes for the file's own canonical root.
            if (root != null && given.Length == 0)
                throw CheckRoot(given);
            return Held(() => CopyWith(given, strongName));
        }

        byte[] CopyWith(byte[] root, StrongName strongName)
        {
            for (var copy = new byte[(long)memory.Length + root.Length + Padding]; ;)
            {
                var fault = new NativeFault();
                ulong result = (ulong)Native.Newer(() => Native.clim_embed(
                    memory.Bytes, (UIntPtr)memory.Length, root, Native.Length(root), strongName, copy, Native.Length(copy), ref fault));
                if (result == Native.BadFile || result == Native.BadRoot)
                    throw FaultOf(fault);
                if (result >= Native.NoRoom && result <= Native.Unlike)
                    throw new EmbedException((EmbedReason)(Native.Unlike - result));
                int length = Native.CheckedLength(result);
                bool fits = length <= copy.Length;
                if (length != copy.Length)
                    Array.Resize(ref copy, length);
                if (fits)
                    return copy;
            }
        }

        /// <summary>
        /// The cell of a table that contains the byte at an offset; null if no cell contains it (II.24.2.6). The offset counts from
        /// the start of the metadata root: of a file, subtract <c>RootStart</c> of its header first.
        /// </summary>
        /// <exception cref="NotSupportedException">The library is older than this file.</exception>
        public Location? Where(long offset)
        {
            var location = new NativeLocation();
            if (offset < 0)
                return null;
            bool found = Native.Newer(() => Native.clim_where(memory, (UIntPtr)(ulong)offset, ref location));
            return found ? new Location(location) : (Location?)null;
        }

        /// <summary>
        /// The first difference between two assemblies; null if both have the same metadata, and so the same canonical
        /// root: the version, the user strings, the number of rows of a table, or a cell.
        /// </summary>
        /// <exception cref="OutOfMemoryException">Memory ran out.</exception>
        /// <exception cref="NotSupportedException">The library is older than this file.</exception>
        public static Difference? Compare(Assembly left, Assembly right)
        {
            var difference = new NativeDifference();
            int result = Native.RootLength(() => Native.clim_compare(left.memory, right.memory, ref difference));
            return result == Native.Equal ? (Difference?)null : new Difference(difference);
        }

        /// <summary>
        /// The namespace and the names of a type and of those that enclose it: <c>Namespace.Outer/Inner</c>. At most 64
        /// types are written; <c>..</c> stands for those that enclose them.
        /// </summary>
        public string FullName(TypeDefRow type)
        {
            CheckOpen();
            var names = new List<string> { OwnName(type) };
            for (int outer = EnclosingType(type.Token); outer > 0; outer = EnclosingType(type.Token))
            {
                if (names.Count == Depth)
                {
                    names.Add("..");
                    break;
                }
                type = Row<TypeDefRow>(outer);
                names.Add(OwnName(type));
            }
            names.Reverse();
            return string.Join("/", names);
        }

        int EnclosingType(Token type)
        {
            bool isThere = type.Table == TableId.TypeDef && type.Row > 0 && type.Row < enclosing.Value.Length;
            return isThere ? enclosing.Value[type.Row] : 0;
        }

        // If several rows have one nested type, the first counts.
        int[] ReadEnclosing()
        {
            var outer = new int[Count(TableId.TypeDef) + 1];
            foreach (var row in Rows<NestedClassRow>())
                if (outer[row.NestedClass.Row] == 0)
                    outer[row.NestedClass.Row] = row.EnclosingClass.Row;
            return outer;
        }

        static string OwnName(TypeDefRow type)
        {
            return type.TypeNamespace.Length == 0 ? type.TypeName : type.TypeNamespace + "." + type.TypeName;
        }

        /// <summary>Reads a row, whose cells were read.</summary>
        T Read<T>(CellReader cells, int index, Token token) where T : struct, IRow
        {
            CheckOpen();
            var row = default(T);
            cells.MoveTo(index, token);
            row.Read(cells);
            return row;
        }

        /// <summary>The cells of all rows of a table, row by row.</summary>
        internal IEnumerable<NativeCell[]> Cells(TableId table)
        {
            foreach (var piece in Pieces(table, new RowRange(1, int.MaxValue)))
            {
                var columns = ReadColumns(table, piece);
                for (int index = 0; index < piece.Count; index++)
                    yield return Array.ConvertAll(columns, column => column[index]);
            }
        }

        /// <summary>The rows of a range that a table has, in pieces: small ones first, for callers that need few rows.</summary>
        IEnumerable<RowRange> Pieces(TableId table, RowRange range)
        {
            int first = Math.Max(range.First, 1), past = Math.Min(range.Past, Count(table) + 1);
            for (int size = FirstPiece; first < past; size = Math.Min(2 * size, LargestPiece))
            {
                int end = first + Math.Min(size, past - first);
                yield return new RowRange(first, end);
                first = end;
            }
        }

        /// <summary>The cells of rows that are there, column by column.</summary>
        NativeCell[][] ReadColumns(TableId table, RowRange rows)
        {
            var columns = new NativeCell[(int)Native.clim_cell_count(table)][];
            for (int column = 0; column < columns.Length; column++)
                columns[column] = ReadColumn(table, rows.First, column, rows.Count);
            return columns;
        }

        NativeCell[] ReadColumn(TableId table, int first, int column, int count)
        {
            var cells = new NativeCell[count];
            for (int index = 0; index < count; index++)
                cells[index].Bytes = NoBytes;
            var written = Native.clim_cells(memory, table, (uint)first, (UIntPtr)column, cells, (UIntPtr)count);
            if ((int)written != count)
                throw new InvalidOperationException("libclim.so wrote " + written + " cells of " + count);
            return cells;
        }

        /// <summary>Makes a call during which the memory is not freed.</summary>
        T Held<T>(Func<T> call)
        {
            bool isHeld = false;
            memory.DangerousAddRef(ref isHeld);
            try
            {
                return call();
            }
            finally
            {
                if (isHeld)
                    memory.DangerousRelease();
            }
        }

        internal string TextOf(NativeBytes bytes)
        {
            if (bytes.Length == UIntPtr.Zero)
                return "";
            string text;
            lock (texts)
            {
                if (texts.TryGetValue(bytes.At, out text))
                    return text;
                text = Encoding.UTF8.GetString(BytesOf(bytes));
                if (text.Length <= unused)
                {
                    unused -= text.Length;
                    texts.Add(bytes.At, text);
                }
            }
            return text;
        }

        /// <summary>A copy of bytes of the root.</summary>
        internal byte[] BytesOf(NativeBytes bytes)
        {
            return Held(() => Copied(bytes));
        }

        /// <summary>A copy of the root, and where the root itself is.</summary>
        internal byte[] CopyRoot(out IntPtr start)
        {
            var root = Held(() => memory.Root);
            start = root.At;
            return BytesOf(root);
        }

        static byte[] Copied(NativeBytes bytes)
        {
            var copy = new byte[(int)bytes.Length];
            if (copy.Length > 0)
                Marshal.Copy(bytes.At, copy, 0, copy.Length);
            return copy;
        }

        /// <summary>A name that belongs to the library, or a text of the root, whose memory the caller holds.</summary>
        internal static string NameOf(NativeBytes name)
        {
            return Encoding.UTF8.GetString(Copied(name));
        }

        static readonly IntPtr empty = Marshal.AllocHGlobal(1);

        internal static NativeBytes NoBytes { get { return new NativeBytes { At = empty }; } }

        static ClimFault FaultOf(NativeFault fault)
        {
            return new ClimFault(fault, RuleName(fault.Code));
        }

        /// <summary>The name of a rule, by its number.</summary>
        internal static string RuleName(ushort code)
        {
            // Only tables can break these two rules, and the library has no names for them.
            if (code == 509 || code == 510)
                return code == 509 ? "BadCell" : "UserBytes";
            var name = NoBytes;
            Native.clim_fault_name(code, ref name);
            return NameOf(name);
        }
    }

    /// <summary>
    /// Tables that a program fills. <see cref="Root"/> checks them against all rules, and makes a metadata root of them.
    /// <code>
    /// var tables = new Tables();
    /// tables.Add(TableId.Module, 0, "one.dll", Guid.NewGuid(), null, null);
    /// tables.Add(TableId.TypeDef, 0, "&lt;Module&gt;", "", null, 1, 1);
    /// tables.Add(TableId.TypeDef, 1, "Greeter", "Hello", null, tables.NextRow(TableId.Field), tables.NextRow(TableId.MethodDef));
    /// tables.Add(TableId.MethodDef, 0, 0, 0x96, "Greet", new byte[] { 0x00, 0x00, 0x01 }, tables.NextRow(TableId.Param));
    /// byte[] root = tables.Root();
    /// </code>
    /// A number, and the first row of a run, is of any integer type or an enum. A text is a <c>string</c>, a blob or a
    /// signature a <c>byte[]</c>, a GUID a <c>Guid</c> or null, and a row of a table a <see cref="Token"/> or null.
    /// </summary>
    public sealed class Tables
    {
        // The number of bytes of a root that are neither cells nor heaps, at most, and those of a cell with what a heap adds.
        const int Heads = 1000;
        const int CellSize = 4 + 5 + 16;
        // The number of bytes of #US to a multiple of which it is padded (II.24.2.2).
        const int Alignment = 4;
        // The token of a user string (II.24.2.4), and the number of bytes that its offset and its length can have.
        const int UserStringTable = 0x70 << 24;
        const int OffsetLimit = 1 << 24;
        const int LengthLimit = 1 << 29;

        /// <summary>A cell of a row. Its bytes are at an offset in the content: a copy of a root, or of them alone.</summary>
        sealed class Kept
        {
            public readonly NativeCell Cell;
            public readonly byte[] Content;

            public Kept(NativeCell cell, byte[] content, long offset, UIntPtr length)
            {
                cell.Bytes = new NativeBytes { At = (IntPtr)offset, Length = length };
                Cell = cell;
                Content = content;
            }
        }

        // It throws if a text has an unpaired surrogate.
        static readonly Encoding utf8 = new UTF8Encoding(false, true);
        static readonly byte[] none = new byte[0];

        readonly SortedDictionary<TableId, List<Kept[]>> rows = new SortedDictionary<TableId, List<Kept[]>>();
        // The copy of a root that cells are parts of.
        byte[] source = none;

        /// <summary>Empty tables with a version string (II.24.2.1).</summary>
        public Tables(string version = "v4.0.30319")
        {
            Version = version;
            UserStrings = none;
        }

        /// <summary>The tables of an assembly, copied: its version, its user strings and all rows.</summary>
        public static Tables Of(Assembly assembly)
        {
            IntPtr start;
            var source = assembly.CopyRoot(out start);
            var tables = new Tables(assembly.Version) { UserStrings = assembly.UserStrings, source = source };
            foreach (TableId table in Enum.GetValues(typeof(TableId)))
                foreach (var row in assembly.Cells(table))
                    tables.RowsOf(table).Add(Array.ConvertAll(row, cell => PartOf(source, start, cell)));
            return tables;
        }

        static Kept PartOf(byte[] source, IntPtr start, NativeCell cell)
        {
            var length = cell.Bytes.Length;
            return new Kept(cell, source, length == UIntPtr.Zero ? 0 : (long)cell.Bytes.At - (long)start, length);
        }

        List<Kept[]> RowsOf(TableId table)
        {
            List<Kept[]> found;
            if (!rows.TryGetValue(table, out found))
                rows.Add(table, found = new List<Kept[]>());
            return found;
        }

        /// <summary>The version string of the root.</summary>
        public string Version { get; set; }

        /// <summary>The bytes of <c>#US</c> (II.24.2.4).</summary>
        public byte[] UserStrings { get; set; }

        /// <summary>The number of rows in a table.</summary>
        public int Count(TableId table)
        {
            List<Kept[]> found;
            return rows.TryGetValue(table, out found) ? found.Count : 0;
        }

        /// <summary>
        /// The row that a table gets next. A run begins with it: so add a type, then its fields and its methods, then the next
        /// type.
        /// </summary>
        public int NextRow(TableId table)
        {
            return Count(table) + 1;
        }

        /// <summary>Adds a row at the end of a table, by its cells in the order of the columns.</summary>
        /// <exception cref="ArgumentException">
        /// There is no such table, it has another number of columns, or a cell is of another type.
        /// </exception>
        /// <exception cref="OverflowException">A number is negative, or has more than 32 bits.</exception>
        public Token Add(TableId table, params object[] cells)
        {
            var names = Assembly.ColumnNames(table);
            if (names.Length == 0 || cells == null || cells.Length != names.Length)
                throw new ArgumentException(table + " has the columns " + string.Join(", ", names), "cells");
            var row = new Kept[cells.Length];
            for (int column = 0; column < row.Length; column++)
                row[column] = Keep(table, names[column], column, cells[column]);
            RowsOf(table).Add(row);
            return new Token(table, Count(table));
        }

        /// <summary>Changes a cell of a row, in the column with a name.</summary>
        /// <exception cref="ArgumentOutOfRangeException">There is no such row or column.</exception>
        /// <exception cref="ArgumentException">The cell is of another type.</exception>
        /// <exception cref="OverflowException">A number is negative, or has more than 32 bits.</exception>
        public void Set(Token row, string column, object cell)
        {
            int index = Array.IndexOf(Assembly.ColumnNames(row.Table), column);
            if (index < 0)
                throw new ArgumentOutOfRangeException("column", row.Table + " has no column " + column);
            if (row.Row < 1 || row.Row > Count(row.Table))
                throw new ArgumentOutOfRangeException("row", row.Table + " has no row " + row.Row);
            rows[row.Table][row.Row - 1][index] = Keep(row.Table, column, index, cell);
        }

        /// <summary>
        /// Adds a user string, and returns its token, such as 0x70000001, as <c>ldstr</c> uses it (II.24.2.4). It may
        /// contain unpaired surrogates.
        /// </summary>
        /// <exception cref="ArgumentException">It is too long, or <c>#US</c> has too many bytes for a token.</exception>
        public int AddUserString(string text)
        {
            var heap = new List<byte>(UserStrings.Length == 0 ? new byte[1] : UserStrings);
            int offset = heap.Count;
            if (offset >= OffsetLimit || text.Length >= (LengthLimit - 1) / 2)
                throw new ArgumentException("the user string has no token", "text");
            int length = 2 * text.Length + 1;
            if (length >= 1 << 14)
                heap.AddRange(new[] { (byte)(0xC0 | length >> 24), (byte)(length >> 16) });
            if (length >= 1 << 7)
                heap.Add((byte)((length < 1 << 14 ? 0x80 : 0) | length >> 8));
            heap.Add((byte)length);
            byte flag = 0;
            foreach (char unit in text)
            {
                heap.Add((byte)unit);
                heap.Add((byte)(unit >> 8));
                if (NeedsMore(unit))
                    flag = 1;
            }
            heap.Add(flag);
            UserStrings = heap.ToArray();
            return UserStringTable | offset;
        }

        // Whether a character needs more than the handling of 8-bit sets. The last byte of its user string says so.
        static bool NeedsMore(char unit)
        {
            return unit > 0xFF || unit >= 0x01 && unit <= 0x08 || unit >= 0x0E && unit <= 0x1F || unit == 0x27 || unit == 0x2D
                || unit == 0x7F;
        }

        /// <summary>
        /// Checks the tables, and returns the canonical root that they make (II.24.2). <see cref="Assembly.OpenRoot(byte[])"/>
        /// opens it, with these rows.
        /// </summary>
        /// <exception cref="ClimRefusal">The tables break a rule. It is that of the first one.</exception>
        /// <exception cref="ArgumentException">The version has an unpaired surrogate.</exception>
        /// <exception cref="OverflowException">The root would have more than 2^30 bytes.</exception>
        /// <exception cref="OutOfMemoryException">Memory ran out.</exception>
        /// <exception cref="NotSupportedException">The library is older than this file.</exception>
        public byte[] Root()
        {
            Native.CheckVersion();
            var given = new List<NativeRow>();
            var cells = new List<Kept>();
            foreach (var table in rows)
                foreach (var row in table.Value)
                {
                    given.Add(new NativeRow { Count = (UIntPtr)row.Length, Table = table.Key });
                    cells.AddRange(row);
                }
            // There is room for one row at least.
            given.Add(new NativeRow());
            var heap = HeapOf(cells);
            var placed = new NativeCell[cells.Count + 1];
            GCHandle heapPin = GCHandle.Alloc(heap, GCHandleType.Pinned), cellsPin = GCHandle.Alloc(placed, GCHandleType.Pinned);
            try
            {
                Place(cells, heapPin.AddrOfPinnedObject(), placed);
                return Made(Joined(given, cellsPin.AddrOfPinnedObject()), Heads + heap.Length + (long)CellSize * cells.Count);
            }
            finally
            {
                heapPin.Free();
                cellsPin.Free();
            }
        }

        /// <summary>The source, and the contents of all cells that are no parts of it. There is one byte at least.</summary>
        byte[] HeapOf(List<Kept> cells)
        {
            long length = source.Length;
            foreach (var cell in cells)
                length += cell.Content == source ? 0 : cell.Content.Length;
            var heap = new byte[length + 1];
            Buffer.BlockCopy(source, 0, heap, 0, source.Length);
            int end = source.Length;
            foreach (var cell in cells)
                if (cell.Content != source)
                {
                    Buffer.BlockCopy(cell.Content, 0, heap, end, cell.Content.Length);
                    end += cell.Content.Length;
                }
            return heap;
        }

        /// <summary>The cells, each of which points to its bytes in the heap.</summary>
        void Place(List<Kept> cells, IntPtr heap, NativeCell[] placed)
        {
            long end = source.Length;
            for (int index = 0; index < cells.Count; index++)
            {
                var cell = cells[index];
                placed[index] = cell.Cell;
                long start = cell.Content == source ? 0 : end;
                placed[index].Bytes.At = (IntPtr)((long)heap + start + (long)cell.Cell.Bytes.At);
                end += cell.Content == source ? 0 : cell.Content.Length;
            }
        }

        /// <summary>The rows, whose cells follow one another.</summary>
        static NativeRow[] Joined(List<NativeRow> rows, IntPtr cells)
        {
            var joined = rows.ToArray();
            for (int index = 0; index < joined.Length; index++)
            {
                joined[index].Cells = cells;
                cells += (int)joined[index].Count * Marshal.SizeOf(typeof(NativeCell));
            }
            return joined;
        }

        byte[] Made(NativeRow[] given, long usual)
        {
            var version = utf8.GetBytes(Version);
            var user = Native.CopyOf(UserStrings);
            Array.Resize(ref user, (user.Length + Alignment - 1) / Alignment * Alignment);
            for (var root = new byte[usual + user.Length]; ;)
            {
                var refusal = new NativeRefusal();
                int length = Native.RootLength(() => Native.clim_tables(
                    version, Native.Length(version), user, Native.Length(user), given, (UIntPtr)(given.Length - 1),
                    root, Native.Length(root), ref refusal));
                if (length == 0)
                    throw new ClimRefusal(refusal, Assembly.RuleName(refusal.Code));
                bool fits = length <= root.Length;
                Array.Resize(ref root, length);
                if (fits)
                    return root;
            }
        }

        /// <summary>A cell of a column, by its value.</summary>
        static Kept Keep(TableId table, string name, int column, object value)
        {
            var cell = new NativeCell();
            var content = none;
            if (value == null)
                cell.Kind = IsGuid(name) ? CellKind.NullGuid : CellKind.NullRow;
            else if (value is string)
            {
                cell.Kind = CellKind.Text;
                content = utf8.GetBytes((string)value);
            }
            else if (value is byte[])
            {
                cell.Kind = column == Assembly.SignatureColumn(table) ? CellKind.Signature : CellKind.Blob;
                content = (byte[])((byte[])value).Clone();
            }
            else if (value is Guid)
            {
                cell.Kind = CellKind.Guid;
                cell.Guid = (Guid)value;
            }
            else if (value is Token)
            {
                cell.Kind = CellKind.Row;
                cell.Table = ((Token)value).Table;
                cell.Number = (uint)((Token)value).Row;
            }
            else if (IsInteger(value))
            {
                cell.Kind = name.EndsWith("List") ? CellKind.Start : CellKind.Number;
                cell.Number = Convert.ToUInt32(value);
            }
            else
                throw new ArgumentException(table + " " + name + ": no cell is of the type " + value.GetType(), "cells");
            return new Kept(cell, content, 0, (UIntPtr)content.Length);
        }

        // The columns of GUIDs are those of Module.
        static bool IsGuid(string name)
        {
            return name == "Mvid" || name == "EncId" || name == "EncBaseId";
        }

        static bool IsInteger(object value)
        {
            var code = Type.GetTypeCode(value.GetType());
            return code >= TypeCode.SByte && code <= TypeCode.UInt64;
        }
    }

    /// <summary>The module (II.22.30).</summary>
    public struct ModuleRow : IRow
    {
        public Token Token;
        public uint Generation;
        public string Name;
        public Guid? Mvid;
        public Guid? EncId;
        public Guid? EncBaseId;

        public TableId Table { get { return TableId.Module; } }

        public void Read(CellReader cells)
        {
            Token = cells.Token;
            Generation = cells.Number();
            Name = cells.Text();
            Mvid = cells.Guid();
            EncId = cells.Guid();
            EncBaseId = cells.Guid();
        }
    }

    /// <summary>A type of another module (II.22.38).</summary>
    public struct TypeRefRow : IRow
    {
        public Token Token;
        public Token? ResolutionScope;
        public string TypeName;
        public string TypeNamespace;

        public TableId Table { get { return TableId.TypeRef; } }

        public void Read(CellReader cells)
        {
            Token = cells.Token;
            ResolutionScope = cells.RowOrNull();
            TypeName = cells.Text();
            TypeNamespace = cells.Text();
        }
    }

    /// <summary>A type (II.22.37).</summary>
    public struct TypeDefRow : IRow
    {
        public Token Token;
        public uint Flags;
        public string TypeName;
        public string TypeNamespace;
        public Token? Extends;
        public int FieldList;
        public int MethodList;

        public TableId Table { get { return TableId.TypeDef; } }

        /// <summary>The flags (II.23.1.15).</summary>
        public System.Reflection.TypeAttributes Attributes { get { return (System.Reflection.TypeAttributes)Flags; } }

        public void Read(CellReader cells)
        {
            Token = cells.Token;
            Flags = cells.Number();
            TypeName = cells.Text();
            TypeNamespace = cells.Text();
            Extends = cells.RowOrNull();
            FieldList = cells.Start();
            MethodList = cells.Start();
        }
    }

    /// <summary>A field (II.22.15).</summary>
    public struct FieldRow : IRow
    {
        public Token Token;
        public uint Flags;
        public string Name;
        public byte[] Signature;

        public TableId Table { get { return TableId.Field; } }

        /// <summary>The flags (II.23.1.5).</summary>
        public System.Reflection.FieldAttributes Attributes { get { return (System.Reflection.FieldAttributes)Flags; } }

        public void Read(CellReader cells)
        {
            Token = cells.Token;
            Flags = cells.Number();
            Name = cells.Text();
            Signature = cells.Signature();
        }
    }

    /// <summary>A method (II.22.26).</summary>
    public struct MethodDefRow : IRow
    {
        public Token Token;
        public uint RVA;
        public uint ImplFlags;
        public uint Flags;
        public string Name;
        public byte[] Signature;
        public int ParamList;

        public TableId Table { get { return TableId.MethodDef; } }

        /// <summary>The flags (II.23.1.10).</summary>
        public System.Reflection.MethodAttributes Attributes { get { return (System.Reflection.MethodAttributes)Flags; } }

        /// <summary>The flags of the implementation (II.23.1.11).</summary>
        public System.Reflection.MethodImplAttributes ImplAttributes { get { return (System.Reflection.MethodImplAttributes)ImplFlags; } }

        public void Read(CellReader cells)
        {
            Token = cells.Token;
            RVA = cells.Number();
            ImplFlags = cells.Number();
            Flags = cells.Number();
            Name = cells.Text();
            Signature = cells.Signature();
            ParamList = cells.Start();
        }
    }

    /// <summary>A parameter (II.22.33).</summary>
    public struct ParamRow : IRow
    {
        public Token Token;
        public uint Flags;
        public uint Sequence;
        public string Name;

        public TableId Table { get { return TableId.Param; } }

        /// <summary>The flags (II.23.1.13).</summary>
        public System.Reflection.ParameterAttributes Attributes { get { return (System.Reflection.ParameterAttributes)Flags; } }

        public void Read(CellReader cells)
        {
            Token = cells.Token;
            Flags = cells.Number();
            Sequence = cells.Number();
            Name = cells.Text();
        }
    }

    /// <summary>An interface that a type implements (II.22.23).</summary>
    public struct InterfaceImplRow : IRow
    {
        public Token Token;
        public Token Class;
        public Token Interface;

        public TableId Table { get { return TableId.InterfaceImpl; } }

        public void Read(CellReader cells)
        {
            Token = cells.Token;
            Class = cells.Row();
            Interface = cells.Row();
        }
    }

    /// <summary>A field or a method of another type (II.22.25).</summary>
    public struct MemberRefRow : IRow
    {
        public Token Token;
        public Token Class;
        public string Name;
        public byte[] Signature;

        public TableId Table { get { return TableId.MemberRef; } }

        public void Read(CellReader cells)
        {
            Token = cells.Token;
            Class = cells.Row();
            Name = cells.Text();
            Signature = cells.Signature();
        }
    }

    /// <summary>A constant value (II.22.9).</summary>
    public struct ConstantRow : IRow
    {
        public Token Token;
        public uint Type;
        public Token Parent;
        public byte[] Value;

        public TableId Table { get { return TableId.Constant; } }

        public void Read(CellReader cells)
        {
            Token = cells.Token;
            Type = cells.Number();
            Parent = cells.Row();
            Value = cells.Blob();
        }

        /// <summary>
        /// The value, by its type (II.23.1.16): a boolean, a character, a number, a string, or null for a null reference. If the
        /// bytes are no value of the type, it is the bytes.
        /// </summary>
        public object TypedValue
        {
            get
            {
                bool isNull = Type == 0x12 && Value.Length == 4 && Array.TrueForAll(Value, it => it == 0);
                return isNull ? null : ValueOf(Type, Value) ?? Value;
            }
        }

        // A value that is not null, by its type and the number of its bytes; null if the bytes are none.
        static object ValueOf(uint type, byte[] bytes)
        {
            using (var reader = new BinaryReader(new MemoryStream(bytes)))
                switch ((ulong)type << 4 | (uint)Math.Min(bytes.Length, 0xF))
                {
                    case 0x021: return bytes[0] > 1 ? null : (object)(bytes[0] == 1);
                    case 0x032: return (char)reader.ReadUInt16();
                    case 0x041: return reader.ReadSByte();
                    case 0x051: return reader.ReadByte();
                    case 0x062: return reader.ReadInt16();
                    case 0x072: return reader.ReadUInt16();
                    case 0x084: return reader.ReadInt32();
                    case 0x094: return reader.ReadUInt32();
                    case 0x0A8: return reader.ReadInt64();
                    case 0x0B8: return reader.ReadUInt64();
                    case 0x0C4: return reader.ReadSingle();
                    case 0x0D8: return reader.ReadDouble();
                    default: return type == 0x0E && bytes.Length % 2 == 0 ? Units(bytes) : null;
                }
        }

        // A string, whose units need not be valid UTF-16.
        static string Units(byte[] bytes)
        {
            var units = new char[bytes.Length / 2];
            Buffer.BlockCopy(bytes, 0, units, 0, bytes.Length);
            return new string(units);
        }
    }

    /// <summary>A custom attribute (II.22.10).</summary>
    public struct CustomAttributeRow : IRow
    {
        public Token Token;
        public Token Parent;
        public Token Type;
        public byte[] Value;

        public TableId Table { get { return TableId.CustomAttribute; } }

        public void Read(CellReader cells)
        {
            Token = cells.Token;
            Parent = cells.Row();
            Type = cells.Row();
            Value = cells.Blob();
        }
    }

    /// <summary>How a field or a parameter is marshalled (II.22.17).</summary>
    public struct FieldMarshalRow : IRow
    {
        public Token Token;
        public Token Parent;
        public byte[] NativeType;

        public TableId Table { get { return TableId.FieldMarshal; } }

        public void Read(CellReader cells)
        {
            Token = cells.Token;
            Parent = cells.Row();
            NativeType = cells.Blob();
        }
    }

    /// <summary>A permission set (II.22.11).</summary>
    public struct DeclSecurityRow : IRow
    {
        public Token Token;
        public uint Action;
        public Token Parent;
        public byte[] PermissionSet;

        public TableId Table { get { return TableId.DeclSecurity; } }

        public void Read(CellReader cells)
        {
            Token = cells.Token;
            Action = cells.Number();
            Parent = cells.Row();
            PermissionSet = cells.Blob();
        }
    }

    /// <summary>The layout of a type (II.22.8).</summary>
    public struct ClassLayoutRow : IRow
    {
        public Token Token;
        public uint PackingSize;
        public uint ClassSize;
        public Token Parent;

        public TableId Table { get { return TableId.ClassLayout; } }

        public void Read(CellReader cells)
        {
            Token = cells.Token;
            PackingSize = cells.Number();
            ClassSize = cells.Number();
            Parent = cells.Row();
        }
    }

    /// <summary>The offset of a field in its type (II.22.16).</summary>
    public struct FieldLayoutRow : IRow
    {
        public Token Token;
        public uint Offset;
        public Token Field;

        public TableId Table { get { return TableId.FieldLayout; } }

        public void Read(CellReader cells)
        {
            Token = cells.Token;
            Offset = cells.Number();
            Field = cells.Row();
        }
    }

    /// <summary>A signature that no other row has (II.22.36).</summary>
    public struct StandAloneSigRow : IRow
    {
        public Token Token;
        public byte[] Signature;

        public TableId Table { get { return TableId.StandAloneSig; } }

        public void Read(CellReader cells)
        {
            Token = cells.Token;
            Signature = cells.Signature();
        }
    }

    /// <summary>The events of a type (II.22.12).</summary>
    public struct EventMapRow : IRow
    {
        public Token Token;
        public Token Parent;
        public int EventList;

        public TableId Table { get { return TableId.EventMap; } }

        public void Read(CellReader cells)
        {
            Token = cells.Token;
            Parent = cells.Row();
            EventList = cells.Start();
        }
    }

    /// <summary>An event (II.22.13).</summary>
    public struct EventRow : IRow
    {
        public Token Token;
        public uint EventFlags;
        public string Name;
        public Token? EventType;

        public TableId Table { get { return TableId.Event; } }

        /// <summary>The flags (II.23.1.4).</summary>
        public System.Reflection.EventAttributes Attributes { get { return (System.Reflection.EventAttributes)EventFlags; } }

        public void Read(CellReader cells)
        {
            Token = cells.Token;
            EventFlags = cells.Number();
            Name = cells.Text();
            EventType = cells.RowOrNull();
        }
    }

    /// <summary>The properties of a type (II.22.35).</summary>
    public struct PropertyMapRow : IRow
    {
        public Token Token;
        public Token Parent;
        public int PropertyList;

        public TableId Table { get { return TableId.PropertyMap; } }

        public void Read(CellReader cells)
        {
            Token = cells.Token;
            Parent = cells.Row();
            PropertyList = cells.Start();
        }
    }

    /// <summary>A property (II.22.34).</summary>
    public struct PropertyRow : IRow
    {
        public Token Token;
        public uint Flags;
        public string Name;
        public byte[] Type;

        public TableId Table { get { return TableId.Property; } }

        /// <summary>The flags (II.23.1.14).</summary>
        public System.Reflection.PropertyAttributes Attributes { get { return (System.Reflection.PropertyAttributes)Flags; } }

        public void Read(CellReader cells)
        {
            Token = cells.Token;
            Flags = cells.Number();
            Name = cells.Text();
            Type = cells.Signature();
        }
    }

    /// <summary>A method of an event or a property (II.22.28).</summary>
    public struct MethodSemanticsRow : IRow
    {
        public Token Token;
        public uint Semantics;
        public Token Method;
        public Token Association;

        public TableId Table { get { return TableId.MethodSemantics; } }

        /// <summary>What the method is to the event or property (II.23.1.12).</summary>
        public MethodSemanticsAttributes Attributes { get { return (MethodSemanticsAttributes)Semantics; } }

        public void Read(CellReader cells)
        {
            Token = cells.Token;
            Semantics = cells.Number();
            Method = cells.Row();
            Association = cells.Row();
        }
    }

    /// <summary>A method that implements another (II.22.27).</summary>
    public struct MethodImplRow : IRow
    {
        public Token Token;
        public Token Class;
        public Token MethodBody;
        public Token MethodDeclaration;

        public TableId Table { get { return TableId.MethodImpl; } }

        public void Read(CellReader cells)
        {
            Token = cells.Token;
            Class = cells.Row();
            MethodBody = cells.Row();
            MethodDeclaration = cells.Row();
        }
    }

    /// <summary>Another module (II.22.31).</summary>
    public struct ModuleRefRow : IRow
    {
        public Token Token;
        public string Name;

        public TableId Table { get { return TableId.ModuleRef; } }

        public void Read(CellReader cells)
        {
            Token = cells.Token;
            Name = cells.Text();
        }
    }

    /// <summary>A type that a signature describes (II.22.39).</summary>
    public struct TypeSpecRow : IRow
    {
        public Token Token;
        public byte[] Signature;

        public TableId Table { get { return TableId.TypeSpec; } }

        public void Read(CellReader cells)
        {
            Token = cells.Token;
            Signature = cells.Signature();
        }
    }

    /// <summary>A method of unmanaged code (II.22.22).</summary>
    public struct ImplMapRow : IRow
    {
        public Token Token;
        public uint MappingFlags;
        public Token MemberForwarded;
        public string ImportName;
        public Token ImportScope;

        public TableId Table { get { return TableId.ImplMap; } }

        /// <summary>The flags (II.23.1.8).</summary>
        public PInvokeAttributes Attributes { get { return (PInvokeAttributes)MappingFlags; } }

        public void Read(CellReader cells)
        {
            Token = cells.Token;
            MappingFlags = cells.Number();
            MemberForwarded = cells.Row();
            ImportName = cells.Text();
            ImportScope = cells.Row();
        }
    }

    /// <summary>The address of the initial value of a field (II.22.18).</summary>
    public struct FieldRVARow : IRow
    {
        public Token Token;
        public uint RVA;
        public Token Field;

        public TableId Table { get { return TableId.FieldRVA; } }

        public void Read(CellReader cells)
        {
            Token = cells.Token;
            RVA = cells.Number();
            Field = cells.Row();
        }
    }

    /// <summary>The assembly (II.22.2).</summary>
    public struct AssemblyRow : IRow
    {
        public Token Token;
        public uint HashAlgId;
        public uint MajorVersion;
        public uint MinorVersion;
        public uint BuildNumber;
        public uint RevisionNumber;
        public uint Flags;
        public byte[] PublicKey;
        public string Name;
        public string Culture;

        public TableId Table { get { return TableId.Assembly; } }

        /// <summary>The flags (II.23.1.2).</summary>
        public AssemblyFlags Attributes { get { return (AssemblyFlags)Flags; } }

        public void Read(CellReader cells)
        {
            Token = cells.Token;
            HashAlgId = cells.Number();
            MajorVersion = cells.Number();
            MinorVersion = cells.Number();
            BuildNumber = cells.Number();
            RevisionNumber = cells.Number();
            Flags = cells.Number();
            PublicKey = cells.Blob();
            Name = cells.Text();
            Culture = cells.Text();
        }
    }

    /// <summary>A processor (II.22.4).</summary>
    public struct AssemblyProcessorRow : IRow
    {
        public Token Token;
        public uint Processor;

        public TableId Table { get { return TableId.AssemblyProcessor; } }

        public void Read(CellReader cells)
        {
            Token = cells.Token;
            Processor = cells.Number();
        }
    }

    /// <summary>An operating system (II.22.3).</summary>
    public struct AssemblyOSRow : IRow
    {
        public Token Token;
        public uint OSPlatformID;
        public uint OSMajorVersion;
        public uint OSMinorVersion;

        public TableId Table { get { return TableId.AssemblyOS; } }

        public void Read(CellReader cells)
        {
            Token = cells.Token;
            OSPlatformID = cells.Number();
            OSMajorVersion = cells.Number();
            OSMinorVersion = cells.Number();
        }
    }

    /// <summary>Another assembly (II.22.5).</summary>
    public struct AssemblyRefRow : IRow
    {
        public Token Token;
        public uint MajorVersion;
        public uint MinorVersion;
        public uint BuildNumber;
        public uint RevisionNumber;
        public uint Flags;
        public byte[] PublicKeyOrToken;
        public string Name;
        public string Culture;
        public byte[] HashValue;

        public TableId Table { get { return TableId.AssemblyRef; } }

        /// <summary>The flags (II.23.1.2).</summary>
        public AssemblyFlags Attributes { get { return (AssemblyFlags)Flags; } }

        public void Read(CellReader cells)
        {
            Token = cells.Token;
            MajorVersion = cells.Number();
            MinorVersion = cells.Number();
            BuildNumber = cells.Number();
            RevisionNumber = cells.Number();
            Flags = cells.Number();
            PublicKeyOrToken = cells.Blob();
            Name = cells.Text();
            Culture = cells.Text();
            HashValue = cells.Blob();
        }
    }

    /// <summary>A processor of another assembly (II.22.7).</summary>
    public struct AssemblyRefProcessorRow : IRow
    {
        public Token Token;
        public uint Processor;
        public Token AssemblyRef;

        public TableId Table { get { return TableId.AssemblyRefProcessor; } }

        public void Read(CellReader cells)
        {
            Token = cells.Token;
            Processor = cells.Number();
            AssemblyRef = cells.Row();
        }
    }

    /// <summary>An operating system of another assembly (II.22.6).</summary>
    public struct AssemblyRefOSRow : IRow
    {
        public Token Token;
        public uint OSPlatformID;
        public uint OSMajorVersion;
        public uint OSMinorVersion;
        public Token AssemblyRef;

        public TableId Table { get { return TableId.AssemblyRefOS; } }

        public void Read(CellReader cells)
        {
            Token = cells.Token;
            OSPlatformID = cells.Number();
            OSMajorVersion = cells.Number();
            OSMinorVersion = cells.Number();
            AssemblyRef = cells.Row();
        }
    }

    /// <summary>A file of the assembly (II.22.19).</summary>
    public struct FileRow : IRow
    {
        public Token Token;
        public uint Flags;
        public string Name;
        public byte[] HashValue;

        public TableId Table { get { return TableId.File; } }

        public void Read(CellReader cells)
        {
            Token = cells.Token;
            Flags = cells.Number();
            Name = cells.Text();
            HashValue = cells.Blob();
        }
    }

    /// <summary>A type of another module of the assembly, or one that moved (II.22.14).</summary>
    public struct ExportedTypeRow : IRow
    {
        public Token Token;
        public uint Flags;
        public uint TypeDefId;
        public string TypeName;
        public string TypeNamespace;
        public Token? Implementation;

        public TableId Table { get { return TableId.ExportedType; } }

        public void Read(CellReader cells)
        {
            Token = cells.Token;
            Flags = cells.Number();
            TypeDefId = cells.Number();
            TypeName = cells.Text();
            TypeNamespace = cells.Text();
            Implementation = cells.RowOrNull();
        }
    }

    /// <summary>A resource (II.22.24).</summary>
    public struct ManifestResourceRow : IRow
    {
        public Token Token;
        public uint Offset;
        public uint Flags;
        public string Name;
        public Token? Implementation;

        public TableId Table { get { return TableId.ManifestResource; } }

        public void Read(CellReader cells)
        {
            Token = cells.Token;
            Offset = cells.Number();
            Flags = cells.Number();
            Name = cells.Text();
            Implementation = cells.RowOrNull();
        }
    }

    /// <summary>A nested type (II.22.32).</summary>
    public struct NestedClassRow : IRow
    {
        public Token Token;
        public Token NestedClass;
        public Token EnclosingClass;

        public TableId Table { get { return TableId.NestedClass; } }

        public void Read(CellReader cells)
        {
            Token = cells.Token;
            NestedClass = cells.Row();
            EnclosingClass = cells.Row();
        }
    }

    /// <summary>A generic parameter (II.22.20).</summary>
    public struct GenericParamRow : IRow
    {
        public Token Token;
        public uint Number;
        public uint Flags;
        public Token Owner;
        public string Name;

        public TableId Table { get { return TableId.GenericParam; } }

        /// <summary>The flags (II.23.1.7).</summary>
        public System.Reflection.GenericParameterAttributes Attributes { get { return (System.Reflection.GenericParameterAttributes)Flags; } }

        public void Read(CellReader cells)
        {
            Token = cells.Token;
            Number = cells.Number();
            Flags = cells.Number();
            Owner = cells.Row();
            Name = cells.Text();
        }
    }

    /// <summary>A generic method with its arguments (II.22.29).</summary>
    public struct MethodSpecRow : IRow
    {
        public Token Token;
        public Token Method;
        public byte[] Instantiation;

        public TableId Table { get { return TableId.MethodSpec; } }

        public void Read(CellReader cells)
        {
            Token = cells.Token;
            Method = cells.Row();
            Instantiation = cells.Signature();
        }
    }

    /// <summary>A constraint of a generic parameter (II.22.21).</summary>
    public struct GenericParamConstraintRow : IRow
    {
        public Token Token;
        public Token Owner;
        public Token Constraint;

        public TableId Table { get { return TableId.GenericParamConstraint; } }

        public void Read(CellReader cells)
        {
            Token = cells.Token;
            Owner = cells.Row();
            Constraint = cells.Row();
        }
    }
}
