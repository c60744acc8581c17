using System;

class Whole : Part
{
    public override string Text(int index) { return "whole " + base.Text(index); }

    static void Main()
    {
        Part part = new Whole();
        Console.WriteLine(part.Text(1) + " " + typeof(Part).Module + " " + typeof(Whole).Module);
        foreach (var it in typeof(Whole).Assembly.GetModules()) Console.WriteLine(it.ScopeName);
    }
}
