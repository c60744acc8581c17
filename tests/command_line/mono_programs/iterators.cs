using System;
using System.Collections;
using System.Collections.Generic;
using System.Threading.Tasks;

class Tree : IEnumerable<int>
{
    readonly Tree left, right;
    readonly int value;
    public Tree(Tree left, int value, Tree right) { this.left = left; this.value = value; this.right = right; }

    public IEnumerator<int> GetEnumerator()
    {
        if (left != null) foreach (int it in left) yield return it;
        yield return value;
        if (right != null) foreach (int it in right) yield return it;
    }

    IEnumerator IEnumerable.GetEnumerator() { return GetEnumerator(); }
}

static class Program
{
    static IEnumerable<long> Numbers()
    {
        long first = 0, second = 1;
        try
        {
            while (true)
            {
                yield return first;
                long next = first + second;
                first = second;
                second = next;
            }
        }
        finally { Console.WriteLine("done"); }
    }

    static async Task<int> Slow(int n)
    {
        int sum = 0;
        for (int i = 0; i < n; i++) { sum += await Task.FromResult(i); }
        return sum;
    }

    static void Main()
    {
        var tree = new Tree(new Tree(null, 1, new Tree(null, 2, null)), 3, new Tree(null, 4, null));
        foreach (int it in tree) Console.Write(it + " ");
        Console.WriteLine();
        foreach (long it in Numbers()) { if (it > 100) break; Console.Write(it + " "); }
        Console.WriteLine(Slow(10).Result);
    }
}
