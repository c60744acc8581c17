// Tests of Clim.cs that keep it busy. The last line is 'N passed, M failed'.
//
//     Stress.exe threads FILE SECONDS     two threads for this time in each call: one calls, and another writes the bytes
//         [NAME..]                        that were given, closes the assembly, or changes the tables. With names, in the
//                                         calls that have them
//     Stress.exe growth FOLDER            calls on the roots of python/tests/hostile_roots.py. The memory for twice the
//                                         bytes may be 2.3 times that for the bytes, and the time, which caches and other
//                                         programs change, 2.8 times

using System;
using System.Collections.Generic;
using System.Diagnostics;
using System.IO;
using System.Linq;
using System.Reflection;
using System.Runtime.InteropServices;
using System.Threading;
using Clim;
using Assembly = Clim.Assembly;

static class Stress
{
    // How often the memory, or the time, for half the bytes those for all may be. A square gives 4.
    const double MostMemory = 2.3, MostTime = 2.8;
    // A call is measured this number of times at most, until the least of each size show that it grows as it may.
    const int Runs = 100;
    // The longest time after which an assembly is closed, in milliseconds.
    const int Longest = 3;

    static int passed, failed;

    static void Report(bool fact, string text)
    {
        if (fact)
            passed++;
        else if (failed++ < 20)
            Console.WriteLine("Stress.cs: not so: " + text);
    }

    // ---- two threads

    // The calls that take an array of bytes.
    static readonly Dictionary<string, Action<byte[]>> given = new Dictionary<string, Action<byte[]>>
    {
        { "Check", file => Assembly.Check(file) },
        { "Check within a budget", file => Assembly.Check(file, 1000) },
        { "ReadHeader", file => Assembly.ReadHeader(file) },
        { "Open", file => Assembly.Open(file).Dispose() },
        { "OffsetOf", file => Assembly.OffsetOf(file, 0x2000, 16) },
        { "Open within a budget", file => Assembly.Open(file, 1000).Dispose() },
        { "Open, of a stream", file => Assembly.Open(new MemoryStream(file)).Dispose() },
    };

    // The same of a bare root.
    static readonly Dictionary<string, Action<byte[]>> givenRoot = new Dictionary<string, Action<byte[]>>
    {
        { "CheckRoot", root => Assembly.CheckRoot(root) },
        { "CheckRoot within a budget", root => Assembly.CheckRoot(root, 1000) },
        { "OpenRoot", root => Assembly.OpenRoot(root).Dispose() },
        { "OpenRoot within a budget", root => Assembly.OpenRoot(root, 1000).Dispose() },
        { "Root, of user strings", user => new Tables { UserStrings = user }.Root() },
        { "Add, of a blob", blob => new Tables().Add(TableId.File, 0, "a", blob) },
        { "AddUserString", user => new Tables { UserStrings = user }.AddUserString("a") },
    };

    // The same of a root for a copy of a file. Each copy that is made opens.
    static readonly Dictionary<string, Action<Assembly, byte[]>> givenTo = new Dictionary<string, Action<Assembly, byte[]>>
    {
        { "Embed", (it, root) => Assembly.Open(it.Embed(root)).Dispose() },
        { "Embed without a strong name", (it, root) => Assembly.Open(it.Embed(root, StrongName.Clear)).Dispose() },
    };

    static readonly Token type = new Token(TableId.TypeDef, 2);

    // The calls of an assembly.
    static readonly Dictionary<string, Action<Assembly>> read = new Dictionary<string, Action<Assembly>>
    {
        { "Version", it => it.Version.ToString() },
        { "UserStrings", it => it.UserStrings.ToString() },
        { "Count", it => it.Count(TableId.TypeDef) },
        { "Rows", it => it.Rows<MethodDefRow>().Count() },
        { "Rows of numbers", it => it.Rows<NestedClassRow>().Count() },
        { "Row", it => it.Row<TypeDefRow>(2) },
        { "Members", it => it.Members(type, TableId.Field) },
        { "Fields", it => it.Fields(it.Row<TypeDefRow>(2)).Count() },
        { "Methods", it => it.Methods(it.Row<TypeDefRow>(2)).Count() },
        { "Params", it => it.Params(it.Row<MethodDefRow>(2)).Count() },
        { "FindType", it => it.FindType("Hello", "Greeter") },
        { "ByKey", it => it.ByKey<NestedClassRow>(type) },
        { "ArgumentsOf", it => it.ArgumentsOf(it.Row<CustomAttributeRow>(1)) },
        { "FindType by a full name", it => it.FindType("Hello.Greeter/Settings") },
        { "NameOf", it => it.NameOf(new Token(TableId.MethodDef, 2)) },
        { "Declaration", it => it.Declaration(new Token(TableId.MethodDef, 2)) },
        { "SignatureText", it => it.SignatureText(new Token(TableId.MethodDef, 2)) },
        { "UserString", it => it.UserString(0x70000001) },
        { "CanonicalRoot", it => it.CanonicalRoot() },
        { "Digest", it => it.Digest() },
        { "Where", it => it.Where(116) },
        { "Compare", it => Assembly.Compare(it, it) },
        { "FullName", it => it.FullName(new TypeDefRow { Token = type, TypeName = "a", TypeNamespace = "" }) },
        { "Tables.Of", it => Tables.Of(it) },
    };

    // The calls of an assembly that is a file.
    static readonly Dictionary<string, Action<Assembly>> readFile = new Dictionary<string, Action<Assembly>>
    {
        { "Embed", it => { try { it.Embed(); } catch (EmbedException) { } } },
        { "BytesAt", it => it.BytesAt(0x2000, 16) },
    };

    // Makes a call again and again while another thread changes what it uses.
    static void Beside(double seconds, Action call, Action change)
    {
        bool ends = false;
        var other = new Thread(() => { while (!Volatile.Read(ref ends)) change(); });
        other.Start();
        for (var time = Stopwatch.StartNew(); time.Elapsed.TotalSeconds < seconds;)
            call();
        Volatile.Write(ref ends, true);
        other.Join();
    }

    // The bytes change during the call. It finds a fault in what it has, or none.
    static void WriteBeside(string name, double seconds, Action<byte[]> call, byte[] bytes)
    {
        var shared = (byte[])bytes.Clone();
        var random = new Random(7);
        string other = null;
        var expected = new[] { typeof(ClimFault), typeof(ClimRefusal), typeof(EmbedException), typeof(BudgetSpentException) };
        Beside(seconds, () => other = Ends(() => call(shared), expected) ?? other, () =>
        {
            int at = random.Next(shared.Length);
            shared[at] = (byte)random.Next(256);
            shared[at] = bytes[at];
        });
        Report(other == null, name + " ends by " + other);
    }

    // How a call ends, if not by a result or by an exception of these types.
    static string Ends(Action call, params Type[] expected)
    {
        try
        {
            call();
            return null;
        }
        catch (Exception caught)
        {
            return expected.Contains(caught.GetType()) ? null : caught.ToString();
        }
    }

    // The assembly is closed during a call of two threads. Both get ObjectDisposedException.
    static void CloseBeside(string name, double seconds, Action<Assembly> call, Func<Assembly> open)
    {
        var random = new Random(7);
        string other = null;
        for (var time = Stopwatch.StartNew(); time.Elapsed.TotalSeconds < seconds;)
        {
            var assembly = open();
            var threads = Enumerable.Range(0, 2).Select(_ => new Thread(
                () => other = Ends(() => { for (;;) call(assembly); }, typeof(ObjectDisposedException)) ?? other)).ToArray();
            foreach (var thread in threads)
                thread.Start();
            Thread.Sleep(random.Next(Longest));
            assembly.Dispose();
            foreach (var thread in threads)
                thread.Join();
        }
        Report(other == null, name + " ends by " + other);
    }

    // Another thread adds and sets rows. No two threads may use tables, but no call reads what is not there.
    static void ChangeBeside(double seconds, Assembly assembly)
    {
        var tables = Tables.Of(assembly);
        int added = 0;
        Beside(seconds, () => Ends(() => tables.Root()), () => Ends(() =>
        {
            if (++added % 1000 == 0)
                tables = Tables.Of(assembly);
            tables.Add(TableId.ModuleRef, new string('a', added % 100));
            tables.Set(new Token(TableId.TypeDef, 2), "TypeName", new string('b', added % 50));
        }));
        Report(true, "Root");
    }

    static void Threads(byte[] file, double seconds, string[] names)
    {
        Func<string, bool> isWanted = name => names.Length == 0 || names.Contains(name);
        var header = Assembly.ReadHeader(file);
        var root = file.Skip((int)header.RootStart).Take((int)header.Metadata.Size).ToArray();
        foreach (var it in given.Where(it => isWanted(it.Key)))
            WriteBeside(it.Key, seconds, it.Value, file);
        foreach (var it in givenRoot.Where(it => isWanted(it.Key)))
            WriteBeside(it.Key, seconds, it.Value, root);
        foreach (var it in read.Where(it => isWanted(it.Key)))
            CloseBeside(it.Key, seconds, it.Value, () => Assembly.OpenRoot(root));
        foreach (var it in readFile.Where(it => isWanted(it.Key)))
            CloseBeside(it.Key, seconds, it.Value, () => Assembly.Open(file));
        if (isWanted("Root"))
            using (var assembly = Assembly.OpenRoot(root))
                ChangeBeside(seconds, assembly);
        using (var assembly = Assembly.Open(file))
            foreach (var it in givenTo.Where(it => isWanted(it.Key)))
                WriteBeside(it.Key, seconds, given => it.Value(assembly, given), root);
    }

    // ---- growth

    static readonly MethodInfo allocated = typeof(GC).GetMethod("GetAllocatedBytesForCurrentThread");

    // The number of bytes that this thread has allocated in the managed heap.
    static double Allocated() { return (long)allocated.Invoke(null, null); }

    // A time of the C library.
    struct Time
    {
        public long Seconds, Nanoseconds;
    }

    // The clock of the processor time of a thread. What /proc says of that time is behind by up to a tick of the system.
    const int ThreadClock = 3;

    [DllImport("libc")]
    static extern int clock_gettime(int clock, out Time time);

    // The processor time of this thread, in nanoseconds.
    static double Now()
    {
        Time time;
        if (clock_gettime(ThreadClock, out time) != 0)
            throw new InvalidOperationException("a thread has no clock");
        return time.Seconds * 1e9 + time.Nanoseconds;
    }

    // What a call adds to a measure, on an assembly that was opened before.
    static double Added(Func<double> measure, byte[] root, Action<Assembly> call)
    {
        using (var assembly = Assembly.OpenRoot(root))
        {
            double before = measure();
            call(assembly);
            return measure() - before;
        }
    }

    static void Measure(string folder, string text, string name, Func<double> measure, Action<Assembly> call)
    {
        var roots = new[] { 1, 2, 4 }.Select(times => File.ReadAllBytes(Path.Combine(folder, name + "." + times)));
        double most = measure == Now ? MostTime : MostMemory;
        double[] least = null;
        for (int run = 0; run < Runs && (least == null || Grows(least, most)); run++)
        {
            var found = roots.Select(root => Added(measure, root, call)).ToArray();
            least = least == null ? found : found.Zip(least, Math.Min).ToArray();
        }
        string unit = measure == Now ? " ms" : " MB";
        string shown = text + " of " + name + ": " + string.Join(", ", least.Select(it => (it / 1e6).ToString("F2") + unit));
        Console.WriteLine(shown);
        Report(!Grows(least, most), shown);
    }

    static bool Grows(double[] least, double most) { return least[2] > most * most * least[0]; }

    // The root of the tables of an assembly, with another name in the first row.
    static void Change(Assembly assembly)
    {
        var tables = Tables.Of(assembly);
        foreach (var table in new[] { TableId.ModuleRef, TableId.File }.Where(it => tables.Count(it) > 0))
            tables.Set(new Token(table, 1), "Name", "changed");
        tables.Root();
    }

    static void Growth(string folder)
    {
        foreach (var name in new[] { "nested_in_one", "nested_out_of_order" })
        {
            Measure(folder, "FullName", name, Now, assembly =>
            {
                foreach (var row in assembly.Rows<TypeDefRow>())
                    assembly.FullName(row);
            });
            Measure(folder, "FindType", name, Now, assembly =>
            {
                string fullName = assembly.FullName(assembly.Row<TypeDefRow>(assembly.Count(TableId.TypeDef)));
                if (assembly.FindType(fullName) == null || assembly.FindType(fullName + "/none") != null)
                    Report(false, "a type by its full name");
            });
        }
        Measure(folder, "ArgumentsOf", "one_array", Now, Arguments);
        if (allocated == null)
            Console.WriteLine("this runtime does not count what it allocates: memory is not measured");
        else
            foreach (var name in new[] { "one_text", "endings", "one_plain_blob", "overlapping_blobs" })
            {
                Measure(folder, "the first row", name, Allocated, First);
                Measure(folder, "Tables.Of", name, Allocated, assembly => Tables.Of(assembly));
                // The canonical root of blobs that overlap has each of them, so that its length grows with the square.
                if (name != "overlapping_blobs")
                    Measure(folder, "Root", name, Allocated, Change);
            }
        if (allocated == null)
            return;
        Measure(folder, "Rows", "one_text", Allocated, assembly => assembly.Rows<ModuleRefRow>().Count());
        Measure(folder, "ArgumentsOf", "one_array", Allocated, Arguments);
    }

    static void Arguments(Assembly assembly)
    {
        if (assembly.ArgumentsOf(assembly.Row<CustomAttributeRow>(1)).Fixed.Length != 1)
            Report(false, "an argument");
    }

    static void First(Assembly assembly)
    {
        if (assembly.Rows<ModuleRefRow>().Take(1).Count() + assembly.Rows<FileRow>().Take(1).Count() != 1)
            Report(false, "one table has rows");
    }

    static int Main(string[] arguments)
    {
        if (arguments[0] == "threads")
            Threads(File.ReadAllBytes(arguments[1]), double.Parse(arguments[2]), arguments.Skip(3).ToArray());
        else
            Growth(arguments[1]);
        Console.WriteLine("{0} passed, {1} failed", passed, failed);
        return failed > 0 ? 1 : 0;
    }
}
