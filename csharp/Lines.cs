// Prints what clim prints, from C#. c/run compares both.
//
//     Lines.exe show FILE [bare]      prints the tables as clim show does, each signature as its blob
//     Lines.exe texts FILE [bare]     the same, but each signature as its text
//     Lines.exe vary FILE [bare]      prints what clim check prints for each prefix of the file, and for the file with
//                                     one byte set to 00 or FF, one line each
//     Lines.exe rewrite FILE OUT [bare]
//                                     writes the canonical root to OUT, as clim rewrite does, and prints its digest
//     Lines.exe build FILE OUT [bare]
//                                     the same, but the root is that of tables with the rows of the file

using System;
using System.Collections.Generic;
using System.IO;
using System.Linq;
using System.Reflection;
using System.Text;
using Clim;
using Assembly = Clim.Assembly;

static class Lines
{
    static Assembly Open(byte[] data, bool bare)
    {
        return bare ? Assembly.OpenRoot(data) : Assembly.Open(data);
    }

    static IEnumerable<byte[]> Inputs(byte[] data)
    {
        for (int length = 0; length <= data.Length; length++)
            yield return data.Take(length).ToArray();
        for (int offset = 0; offset < data.Length; offset++)
            foreach (byte value in new byte[] { 0x00, 0xFF })
            {
                var changed = (byte[])data.Clone();
                changed[offset] = value;
                yield return changed;
            }
    }

    static string Answer(byte[] data, bool bare)
    {
        var fault = bare ? Assembly.CheckRoot(data) : Assembly.Check(data);
        string opened = "ok";
        try
        {
            Open(data, bare).Dispose();
        }
        catch (ClimFault caught)
        {
            opened = caught.Message;
        }
        string wanted = fault == null ? "ok" : fault.Message;
        return wanted == opened ? wanted : "check and open differ";
    }

    static string Escaped(string text)
    {
        var shown = new StringBuilder();
        foreach (byte value in Encoding.UTF8.GetBytes(text))
            if (value >= ' ' && value <= '~' && value != '"' && value != '\\')
                shown.Append((char)value);
            else
                shown.Append("\\x" + value.ToString("x2"));
        return "\"" + shown + "\"";
    }

    // A cell, as clim show prints it: its type is that of the field of a row.
    static string Shown(object value)
    {
        if (value == null)
            return "null";
        if (value is string)
            return Escaped((string)value);
        if (value is byte[])
            return "<" + Hex((byte[])value) + ">";
        if (value is Guid)
            return "{" + value + "}";
        return value is int ? "+" + value : value.ToString();
    }

    // The same, but a signature as its text. No table with signatures has other blobs.
    static string WithText(Assembly assembly, Token row, object value)
    {
        string text = value is byte[] ? assembly.SignatureText(row) : null;
        return text == null ? Shown(value) : "<" + text + ">";
    }

    static void ShowTable<T>(Assembly assembly, Func<Token, object, string> shown) where T : struct, IRow
    {
        var table = default(T).Table;
        var fields = typeof(T).GetFields().Where(field => field.Name != "Token").ToArray();
        if (!fields.Select(field => field.Name).SequenceEqual(Assembly.ColumnNames(table)))
            Console.WriteLine("the columns are " + string.Join(" ", Assembly.ColumnNames(table)));
        if (assembly.Count(table) == 0)
            return;
        Console.WriteLine("table {0:X2} {1} {2}", (int)table, Assembly.TableName(table), assembly.Count(table));
        foreach (var row in assembly.Rows<T>())
        {
            object boxed = row;
            var token = (Token)typeof(T).GetField("Token").GetValue(boxed);
            Console.WriteLine(token.Row + ": " + string.Join(" ", fields.Select(field => shown(token, field.GetValue(boxed)))));
        }
    }

    static void Show(Assembly assembly, Func<Token, object, string> shown)
    {
        var show = typeof(Lines).GetMethod("ShowTable", BindingFlags.NonPublic | BindingFlags.Static);
        foreach (TableId table in Enum.GetValues(typeof(TableId)))
            show.MakeGenericMethod(Type.GetType("Clim." + table + "Row")).Invoke(null, new object[] { assembly, shown });
    }

    static string Hex(byte[] bytes)
    {
        return BitConverter.ToString(bytes).Replace("-", "").ToLowerInvariant();
    }

    static void WriteRoot(Assembly assembly, byte[] root, string path)
    {
        File.WriteAllBytes(path, root);
        Console.WriteLine(Hex(assembly.Digest()));
    }

    static int Main(string[] arguments)
    {
        if (arguments.Length < 2)
            return 2;
        var data = File.ReadAllBytes(arguments[1]);
        bool bare = arguments.Last() == "bare";
        var output = new StreamWriter(Console.OpenStandardOutput(), new UTF8Encoding(false), 1 << 16);
        Console.SetOut(output);
        if (arguments[0] == "vary")
            foreach (var input in Inputs(data))
                Console.WriteLine(Answer(input, bare));
        else
            using (var assembly = Open(data, bare))
                if (arguments[0] == "rewrite")
                    WriteRoot(assembly, assembly.CanonicalRoot(), arguments[2]);
                else if (arguments[0] == "build")
                    WriteRoot(assembly, Tables.Of(assembly).Root(), arguments[2]);
                else if (arguments[0] == "texts")
                    Show(assembly, (row, value) => WithText(assembly, row, value));
                else
                    Show(assembly, (row, value) => Shown(value));
        output.Flush();
        return 0;
    }
}
