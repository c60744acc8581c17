using System;
using System.Runtime.InteropServices;
using System.Text;

[StructLayout(LayoutKind.Explicit, Size = 16)]
struct Mixed
{
    [FieldOffset(0)] public int Low;
    [FieldOffset(4)] public int High;
    [FieldOffset(0)] public long Both;
}

[StructLayout(LayoutKind.Sequential, Pack = 2)]
struct Packed
{
    public byte Small;
    public int Large;
    [MarshalAs(UnmanagedType.ByValArray, SizeConst = 3)] public short[] More;
}

static class Program
{
    delegate int Compare(IntPtr left, IntPtr right);

    [DllImport("libc", EntryPoint = "strlen")]
    static extern IntPtr Length([MarshalAs(UnmanagedType.LPStr)] string text);

    [DllImport("libc", SetLastError = true)]
    static extern int close(int descriptor);

    [DllImport("libc")]
    static extern void qsort([In, Out] int[] items, IntPtr count, IntPtr size, Compare compare);

    static void Main()
    {
        Console.WriteLine(Length("five!"));
        Console.WriteLine(close(-1) + " " + Marshal.GetLastWin32Error());
        var items = new[] { 5, 3, 9, 1 };
        qsort(items, (IntPtr)items.Length, (IntPtr)4, (left, right) => Marshal.ReadInt32(left).CompareTo(Marshal.ReadInt32(right)));
        Console.WriteLine(string.Join(" ", items));
        Console.WriteLine(new Mixed { Low = 1, High = 2 }.Both + " " + Marshal.SizeOf(typeof(Mixed)) + " " + Marshal.SizeOf(typeof(Packed)));
    }
}
