using System;
using System.Linq;
using System.Reflection;

[assembly: AssemblyTitle("t\u00eftle")]
[assembly: AssemblyVersion("1.2.3.4")]

[AttributeUsage(AttributeTargets.All, AllowMultiple = true)]
class NoteAttribute : Attribute
{
    public NoteAttribute(string text, params object[] more) { Text = text; More = more; }
    public readonly string Text;
    public readonly object[] More;
    public Type Type { get; set; }
    public DayOfWeek Day;
}

[Note("a class", 1, "two", 3.5, Type = typeof(System.Collections.Generic.List<int[]>), Day = DayOfWeek.Friday)]
[Note(null)]
class Noted<[Note("a parameter of a type")] T>
{
    [Note("a field", 'c', (byte)200)] public const decimal Price = 12.50m;
    [Note("an event")] public event EventHandler Changed { add { } remove { } }
    [Note("a property")] public int this[[Note("an index")] int index] { get { return index; } }
    [return: Note("a result")] public T Same(T value, int times = 7, string text = "a default") { return value; }
    const long Large = long.MinValue;
    const float Part = 0.25f;
    static readonly int[] Table = { 1, 1, 2, 3, 5, 8, 13, 21, 34 };
}

static class Program
{
    const BindingFlags Everything = BindingFlags.Public | BindingFlags.NonPublic | BindingFlags.Static | BindingFlags.Instance | BindingFlags.DeclaredOnly;

    static void Print(string name, ICustomAttributeProvider provider)
    {
        foreach (NoteAttribute it in provider.GetCustomAttributes(typeof(NoteAttribute), false).Cast<NoteAttribute>().OrderBy(it => it.Text))
            Console.WriteLine("{0}: {1} ({2}) {3} {4}", name, it.Text, string.Join(";", (it.More ?? new object[0]).Select(v => v + ":" + v.GetType())), it.Type, it.Day);
    }

    static void Main()
    {
        var self = typeof(Program).Assembly;
        Console.WriteLine(self.FullName + " " + self.GetCustomAttribute<AssemblyTitleAttribute>().Title + " " + self.EntryPoint);
        foreach (var type in self.GetTypes().OrderBy(it => it.MetadataToken))
        {
            Console.WriteLine("{0:x8} {1} : {2}", type.MetadataToken, type, type.BaseType);
            Print("type", type);
            foreach (var it in type.GetGenericArguments()) Print("parameter of a type", it);
            foreach (var member in type.GetMembers(Everything).OrderBy(it => it.MetadataToken))
            {
                Console.WriteLine("  {0:x8} {1}", member.MetadataToken, member);
                Print("member", member);
                var method = member as MethodInfo;
                if (method == null) continue;
                Print("result", method.ReturnTypeCustomAttributes);
                foreach (var it in method.GetParameters())
                {
                    Console.WriteLine("    {0} {1} {2}", it, it.Attributes, it.HasDefaultValue ? it.RawDefaultValue : null);
                    Print("parameter", it);
                }
            }
        }
        var field = typeof(Noted<>).MakeGenericType(typeof(int)).GetField("Table", Everything);
        Console.WriteLine(string.Join(",", (int[])field.GetValue(null)));
    }
}
