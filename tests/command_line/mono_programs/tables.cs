using System;
using System.Runtime.CompilerServices;

static unsafe class Program
{
    static readonly byte[] Bytes = { 9, 8, 7, 6, 5, 4, 3, 2, 1 };
    static readonly long[] Longs = { 1L << 40, -1, 3, long.MaxValue };
    static readonly double[,] Square = { { 1.5, 2.5 }, { 3.5, 4.5 } };

    struct Buffer { public fixed char Text[8]; }

    [MethodImpl(MethodImplOptions.NoInlining)]
    static int Sum(int* items, int count) { int sum = 0; for (int i = 0; i < count; i++) sum += items[i]; return sum; }

    static void Main()
    {
        Console.WriteLine("{0} bits", IntPtr.Size * 8);
        var buffer = new Buffer();
        for (int i = 0; i < 8; i++) buffer.Text[i] = (char)('a' + i);
        Console.WriteLine(new string(buffer.Text, 0, 8));
        int* items = stackalloc int[4];
        for (int i = 0; i < 4; i++) items[i] = i + 3;
        Console.WriteLine(Sum(items, 4) + " " + sizeof(Buffer));
        Console.WriteLine(string.Join(" ", Bytes) + " " + string.Join(" ", Longs) + " " + Square[1, 0]);
        Console.WriteLine("\u4e2d\u6587 \ud83d\ude00 \"quoted\"\t" + 'x' + 0.1m);
    }
}
