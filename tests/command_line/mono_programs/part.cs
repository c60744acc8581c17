using System;

public class Part
{
    public static readonly string[] Names = { "first", "second" };
    public virtual string Text(int index) { return "part " + Names[index]; }
}
