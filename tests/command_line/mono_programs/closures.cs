using System;
using System.Collections.Generic;

delegate string Show<in T>(T value);

abstract class Animal
{
    public event Action<string> Heard = delegate { };
    protected abstract string Sound { get; }
    public virtual void Speak() { Heard(GetType().Name + " " + Sound); }
}

class Dog : Animal { protected override string Sound { get { return "wuff"; } } }

sealed class Puppy : Dog
{
    protected override string Sound { get { return base.Sound.ToUpperInvariant() + "!"; } }
    public override void Speak() { base.Speak(); base.Speak(); }
}

static class Program
{
    static int calls;
    static readonly Dictionary<string, Func<double, double, double>> Operators = new Dictionary<string, Func<double, double, double>>
    {
        { "+", (a, b) => a + b }, { "-", (a, b) => a - b }, { "*", (a, b) => a * b }, { "/", (a, b) => a / b },
    };

    static void Main()
    {
        var log = new List<string>();
        foreach (var animal in new Animal[] { new Dog(), new Puppy() })
        {
            animal.Heard += text => log.Add(++calls + ": " + text);
            animal.Speak();
        }
        Console.WriteLine(string.Join(", ", log));
        foreach (var it in Operators) Console.Write(it.Key + it.Value(7, 2).ToString(System.Globalization.CultureInfo.InvariantCulture) + " ");
        Show<object> show = value => "<" + value + ">";
        Show<string> narrower = show;
        Console.WriteLine(narrower("text"));
        switch (log.Count.ToString()) { case "1": case "2": Console.WriteLine("few"); break; case "3": Console.WriteLine("three"); break; default: Console.WriteLine("many"); break; }
    }
}
